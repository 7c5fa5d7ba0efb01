// Defines faint(): the visible texts with less contrast than WCAG 2.2, level AA, in each state of
// the board.
function faint() {
  const colour = text => text.match(/[\d.]+/g).map(Number);
  const over = ([r, g, b, a = 1], below) =>
    [r, g, b].map((part, n) => part * a + below[n] * (1 - a));
  const luminance = parts => parts.map(part => part / 255)
    .map(part => part <= .04045 ? part / 12.92 : ((part + .055) / 1.055) ** 2.4)
    .reduce((sum, part, n) => sum + part * [.2126, .7152, .0722][n], 0);
  const ground = node => {
    if (!node) return [255, 255, 255];
    const { backgroundColor } = getComputedStyle(node);
    return over(colour(backgroundColor), ground(node.parentElement));
  };
  const found = [];
  function see(text, style, front, below) {
    const [one, other] = [luminance(over(colour(front), below)), luminance(below)];
    const contrast = (Math.max(one, other) + .05) / (Math.min(one, other) + .05);
    const isLarge = parseFloat(style.fontSize) >= (style.fontWeight >= 700 ? 18.7 : 24);
    if (contrast < (isLarge ? 3 : 4.5)) found.push(`${text.trim()}: ${contrast.toFixed(2)}`);
  }
  function look() {
    const walker = document.createTreeWalker(document.body, NodeFilter.SHOW_TEXT);
    while (walker.nextNode()) {
      const { data, parentElement: node } = walker.currentNode, style = getComputedStyle(node);
      if (!data.trim() || !node.checkVisibility() || node.closest(":disabled, script")) continue;
      const board = node.closest("svg"), squares = board?.querySelectorAll(".light, .dark") ?? [];
      if (!board) see(data, style, style.color, ground(node));
      for (const each of squares) see(data, style, style.fill, colour(getComputedStyle(each).fill));
    }
    for (const node of document.querySelectorAll("input")) {
      const style = getComputedStyle(node, "::placeholder");
      if (node.checkVisibility()) see(node.placeholder, style, style.color, ground(node));
    }
  }
  const { dataset } = document.getElementById("state"), was = dataset.state;
  for (const state of ["none", "gone", "silent", "asking", "doubt", "known", "confirmed"]) {
    dataset.state = state;
    look();
  }
  dataset.state = was;
  return [...new Set(found)];
}
