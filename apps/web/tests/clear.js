// Lists the coordinates that a piece would cover, with its square's letter.
Array.from(page.seen.svg.querySelectorAll(".coordinate")).flatMap(text => {
  const { x, y, width, height } = text.getBBox(), spots = [];
  for (let n = 0; n < 100; n++) {
    spots.push([x + width * (n % 10) / 9, y + height * Math.floor(n / 10) / 9]);
  }
  return [..."prnbqkxyz"].filter(letter => {
    page.seen.draw(letter.repeat(64), "");
    return page.seen.nodes.some((node, square) => spots.some(([across, down]) => {
      const point = new DOMPoint(across - 100 * (square % 8), down - 100 * (square >> 3));
      return node.isPointInFill(point) || node.isPointInStroke(point);
    }));
  }).map(letter => text.textContent + letter);
})
