//! What `--help` prints, in lines of at most 80 characters.

pub const PROGRAM: &str = "\
catalogue: saved stores of the cabinet compiler's types, for people

  catalogue show FILE     the label, the numbers, and every entry: handle,
                          kind, depth and n (the head), the type in a readable
                          form, and the words after the head
  catalogue check FILE    whether the file is one that the library loads, and
                          if not, what is wrong and where
  catalogue diff A B      the labels, and the entries that only A or only B
                          holds
  catalogue --version

FILE is what ferigulan_save or save_into has written, or '-' for standard
input: a label of up to 255 bytes, the store's words from 94 on, eight bytes
each, the lowest first, and two words more, where they start and how many they
are. The 94 words that every store begins with are in no file, and are shown by
no command. A label is shown as text where all of it can be printed, else in
hex. Types are written as 'ferigulan help run' says.

check answers 'good' with the numbers, or 'bad' with the number of the refusal:
14, the trailer is missing or does not fit the length; 15, the words are no
store behind the fresh ones, or one with two equal entries; 5, the label is
over 255 bytes. It names the first entry that is wrong, by its handle and the
byte of the file where it begins.

diff compares entries as what they are, names by their bytes and types by their
parts: the same types in another order, at other handles, are the same.

Whether a file is good is the proved library's answer. The list of entries, the
types and the reasons are this program's own, and outside what is proved; where
its own reading of a file does not agree with the library, check says so, and
the library's answer stands.

Exit status: 0 done, good, or the same; 1 bad (check) or not the same (diff);
2 the command is none, a file cannot be read or, of show and diff, is bad, or
the output cannot be written.
";
