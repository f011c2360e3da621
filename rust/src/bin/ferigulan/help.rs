//! What `--help` and `help` print, in lines of at most 80 characters.
use crate::usage;

pub const PROGRAM: &str = "\
ferigulan: the type lattice of the cabinet compiler, for people

  ferigulan run [--plain] [--long] [SCRIPT..]
      runs scripts of calls and prints each line with its answer
  ferigulan show [--raw] [FILE]
      lists the entries of a dumped store
  ferigulan help run | show | script
      tells more of the two, and how calls are written
  ferigulan --version

The calls are the proved library's. The readable form of types, and what show
says of words that are not well formed, are this program's own, and outside
what is proved.

Exit status: 0 done; 1 a line was no call, or the words shown are not well
formed; 2 the command is none, or a file cannot be read or written.
";

pub const RUN: &str = "\
ferigulan run [--plain] [--long] [SCRIPT..]

Runs each SCRIPT, beginning with an empty list; standard input where none is
named, or where it is '-'. A line of the script is a line of the output: the
call, '=>', its answer, what that means, and the line's comment. A call of more
than 120 characters is cut, and ends in '..'.

  94      a handle, and the type that it stands for
  28 6    of find_entry: a handle, or 'absent', and how many entries were not
          passed over, which are those of the same head up to it
  =-4     a signed number
  1, 0    yes, no
  -12     a refusal, and its condition in the documents' words
  ?       the line is no call; standard error says why, after SCRIPT:LINE:,
          and the run goes on

Types are written so:

  Bot, Top, Ctrl, XCtrl
  8, 0..7                   Ints: a constant, a range
  bool, i8, u8 .. u32, int  ranges that have a name; int is all numbers
  0.5, f32, f64             Floats: a constant, a size
  ~8..3, ~int, ~f32         high Ints and Floats
  (Ctrl, 0..7)              a tuple
  S {f: 0..7, g: final f64} a struct; fields with odd names are in quotes
  fref S                    a forward reference
  *S {f: 0..7}, *S {..}?    a pointer, and one that may be nil
  null, *void               the pointers that have a name
  #2: 0..7                  a memory type, with its alias
  (@94, @94)                parts by their handles, where all of it would take
                            more than 200 characters; '..' ends what is cut
  \"S\"                       a name by itself

dump lists the entries that were made, as 'ferigulan show' does. dumpall gives
all words of the list.

  --plain   prints just what the program 'calls' prints, and has its limits:
            lists of at most 65,536 words, outputs of at most 4,096. A line
            that is no call is printed after '? ', and is no failure
  --long    with --plain: lists and outputs of up to 1,048,576 words, which
            the readable form has always

Exit status: 0 each line was a call, refused ones too; 1 some line was none;
2 a script cannot be read, or the output cannot be written. When whoever reads
the output goes away, the run ends quietly, with 0.
";

pub const SHOW: &str = "\
ferigulan show [--raw] [FILE]

Lists the entries of a store: handle, kind, depth and n (the head), the type in
a readable form ('ferigulan help run'), and the words after the head. FILE, or
standard input, has what the script lines dump or dumpall print with --plain:
words as numbers, with spaces or lines between them. With --raw, or where FILE
ends in .bin, a word is eight bytes, the lowest first.

The first line tells whether the words are well formed (row 1 of document 01).
That is the library's answer, for a list of just these words, since dump does
not tell how many unused ones follow. Where they are not, it says what is wrong
first. Lines with '!' say what is wrong with the entry above. A type is given
as '?' where a part of it is wrong, and the list ends where an entry cannot be
read. The list, the types and the reasons are outside what is proved.

Exit status: 0 well formed; 1 not; 2 FILE cannot be read, or says what is no
word.
";

const SCRIPT: &str = "\
A script has a call a line, its words separated by one space; ';' starts a
comment. Numbers are decimal, a negative one for its two's complement word, or
0x hex. HEX is a text: two hex digits a byte, nothing for the empty one. W are
fields, four numbers each: name, type, alias, final; of find_entry they are an
entry's words, its head first. A line has fewer than 262,144 bytes.

A file is a store's label, its words from 94 on, eight bytes each, and two
words more: where they start, and how many they are. save prints its length,
and then all OUTLEN bytes, which hold 77 where nothing was written; the file is
kept. load and reload tell the label's length. 'catalogue' shows files.

";

pub fn script() -> String {
    format!("{SCRIPT}{}", usage::lines())
}
