// A box above each part that asks for one: it hides the rows and names without the words typed. Without a script all are there.
for (const part of document.querySelectorAll("[data-find]")) {
  const box = document.createElement("input");
  box.className = "find";
  box.placeholder = "find " + part.dataset.find;
  box.setAttribute("aria-label", box.placeholder);
  const items = [...part.querySelectorAll("tbody > tr, .index > li")];
  box.addEventListener("input", () => {
    const words = box.value.toLowerCase();
    for (const item of items) item.hidden = !item.textContent.toLowerCase().includes(words);
  });
  part.querySelector("h2").after(box);
}
