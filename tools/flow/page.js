// Pictures by frames: which of them are shown, by keys, buttons and the wheel. The page is whole without this.
document.documentElement.classList.add("scripted");
for (const figure of document.querySelectorAll("figure.frames-of")) {
  const svg = figure.querySelector("svg.waves"), frames = svg.querySelector("svg.frames"), data = svg.dataset;
  const first = +data.first, last = +data.last, names = +data.names, wide = data.width - names, letter = +data.letter;
  const height = frames.getAttribute("viewBox").split(" ")[3], home = [+data.from, +data.count];
  const show = (from, count) => {
    count = Math.max(1, Math.min(count, last - first));
    from = Math.max(first, Math.min(from, last - count));
    data.from = from; data.count = count;
    frames.setAttribute("viewBox", [from, 0, count, height].join(" "));
    const scale = wide / count, step = Math.ceil(40 / scale);
    for (const text of svg.querySelectorAll(".texts text")) {
      const begin = +text.dataset.f, left = Math.max(begin, from), right = Math.min(begin + +text.dataset.n, from + count), value = text.dataset.v;
      const isFrame = text.classList.contains("frame"), room = Math.floor(((right - left) * scale - 8) / letter);
      let seen = value.length <= room ? value : room > 1 ? value.slice(0, room - 1) + "\u2026" : "";
      if (isFrame) seen = begin % step ? "" : value;
      text.textContent = right > left ? seen : "";
      text.setAttribute("x", names + ((left + right) / 2 - from) * scale);
    }
  };
  const around = count => {
    const middle = +data.from + data.count / 2;
    show(Math.round(middle - count / 2), count);
  };
  const acts = {
    "+": () => around(Math.floor(data.count / 1.5)), "-": () => around(Math.ceil(data.count * 1.5)),
    "ArrowLeft": () => show(data.from - 1, +data.count), "ArrowRight": () => show(+data.from + 1, +data.count),
    "Home": () => show(first, +data.count), "End": () => show(last, +data.count), "0": () => show(...home),
  };
  acts["="] = acts["+"];
  figure.addEventListener("keydown", event => {
    if (acts[event.key] && !event.ctrlKey && !event.metaKey && !event.altKey) { acts[event.key](); event.preventDefault(); }
  });
  figure.addEventListener("wheel", event => {
    if (figure.contains(document.activeElement)) { acts[event.deltaY < 0 ? "+" : "-"](); event.preventDefault(); }
  }, { passive: false });
  for (const button of figure.querySelectorAll("button")) button.addEventListener("click", () => acts[button.dataset.key]());
}
