// Shows how far the work is, and loads the page anew when it has ended. Without scripts the page reloads itself.
const work = document.getElementById("work");
async function look() {
  const answer = await fetch("/progress");
  const told = await answer.json();
  if (told.kind !== work.dataset.kind) {
    location.replace(location.href);
    return;
  }
  if (told.shown) {
    document.getElementById("done").textContent = told.shown;
    const bar = work.querySelector("progress");
    bar.max = told.total;
    bar.value = told.done;
  }
  setTimeout(look, 700);
}
if (work) setTimeout(look, 400);

// Shows the figures and pictures of an item as soon as they are computed. Without scripts a link leads to them.
const draw = document.getElementById("draw");
async function show() {
  const answer = await fetch(draw.href);
  const page = new DOMParser().parseFromString(await answer.text(), "text/html");
  for (const part of ["head", "figures"]) {
    document.getElementById(part).replaceWith(page.getElementById(part));
  }
}
if (draw) show();
