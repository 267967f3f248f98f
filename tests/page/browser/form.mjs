// Tests the form of a page in the browser: the contrast of texts and fields, texts that are cut, too small or over each other, and
// sideways scrolling. It runs in the page, so it imports nothing. `width` is the window's: a phone's browser makes innerWidth
// larger if something does not fit.
export function lookAtForm(width) {
  const LEAST_CONTRAST = 4.5; // WCAG AA
  const SMALLEST = 10.5;
  const rgb = (colour) => colour.match(/[\d.]+/g).map(Number);
  const channel = (v) => (v / 255 <= 0.03928 ? v / 255 / 12.92 : ((v / 255 + 0.055) / 1.055) ** 2.4);
  const luminance = ([r, g, b]) => 0.2126 * channel(r) + 0.7152 * channel(g) + 0.0722 * channel(b);
  const over = (top, under) => [0, 1, 2].map((i) => top[i] * (top[3] ?? 1) + under[i] * (1 - (top[3] ?? 1)));
  const canvas = document.createElement("canvas").getContext("2d", { willReadFrequently: true });
  const plain = (colour) => {
    canvas.clearRect(0, 0, 1, 1);
    canvas.fillStyle = colour;
    canvas.fillRect(0, 0, 1, 1);
    const [r, g, b, a] = canvas.getImageData(0, 0, 1, 1).data;
    return [r, g, b, a / 255];
  };
  const parsed = (colour) => (colour.startsWith("rgb") ? rgb(colour) : plain(colour));
  const behind = (element) => {
    const chain = [];
    for (let e = element; e; e = e.parentElement) chain.unshift(e);
    return chain.reduce((under, e) => over(parsed(getComputedStyle(e).backgroundColor), under), [255, 255, 255]);
  };
  const contrast = (one, other) => {
    const [a, b] = [luminance(one), luminance(other)].sort((x, y) => y - x);
    return (a + 0.05) / (b + 0.05);
  };
  const found = { low: new Set(), cut: new Set(), small: new Set() };
  let texts = 0;

  const lookAtText = (node) => {
    const e = node.parentElement;
    const box = e.getBoundingClientRect();
    if (!node.data.trim() || box.width < 2 || e.closest("script, style, title, .spoken, .skip, [aria-disabled=true], [hidden], option, noscript")) return;
    texts++;
    const drawing = e.closest("svg");
    const style = getComputedStyle(e);
    const state = e.closest(".state");
    const under = state ? parsed(getComputedStyle(state.querySelector("rect")).fill) : behind(drawing ? drawing.parentElement : e);
    const ratio = contrast(over(parsed(drawing ? style.fill : style.color), under), under);
    const said = e.textContent.slice(0, 30);
    if (ratio < LEAST_CONTRAST) found.low.add(`${said} ${ratio.toFixed(2)}`);
    const size = parseFloat(style.fontSize) * (drawing ? e.getScreenCTM().a : 1); // as it is drawn
    if (size < SMALLEST && !e.closest("[aria-hidden]")) found.small.add(`${said} ${size.toFixed(1)}px`);
    const edge = drawing ? drawing.getBoundingClientRect() : { left: -1, right: width };
    const isOut = box.right > edge.right + 1 || box.left < edge.left - 1;
    if (isOut && drawing?.id !== "map" && !e.closest(".scroll, #listing-box")) found.cut.add(said);
  };
  const walk = document.createTreeWalker(document.body, NodeFilter.SHOW_TEXT);
  while (walk.nextNode()) lookAtText(walk.currentNode);

  for (const field of document.querySelectorAll("select, input:not([type=range], [type=checkbox], [type=radio])")) {
    const under = behind(field);
    const isSample = field.placeholder && !field.value;
    const ratio = contrast(over(parsed(getComputedStyle(field, isSample ? "::placeholder" : null).color), under), under);
    if (ratio < LEAST_CONTRAST) found.low.add(`field ${field.id} ${ratio.toFixed(2)}`);
  }
  for (const box of document.querySelectorAll("#listing-box, .scroll, #drawing")) {
    if (box.scrollWidth > box.clientWidth + 1) found.cut.add(`sideways: ${box.id || box.className}`);
  }
  for (const drawing of document.querySelectorAll("#automaton, #plot > svg")) {
    const all = [...drawing.querySelectorAll("text")].filter((t) => t.textContent).map((t) => [t.textContent, t.getBoundingClientRect()]);
    const meet = (a, b) => a.left < b.right - 2 && b.left < a.right - 2 && a.top < b.bottom - 4 && b.top < a.bottom - 4;
    all.forEach(([p, a], i) => all.slice(i + 1).forEach(([q, b]) => meet(a, b) && found.cut.add(`over each other: ${p} / ${q}`)));
  }
  const isWide = document.documentElement.scrollWidth > width;
  return { low: [...found.low], cut: [...found.cut], small: [...found.small], isWide, hasTexts: texts > 100 };
}
