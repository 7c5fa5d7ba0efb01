// Has the pieces set up while the game that the page plays holds one. Returns the placement later.
new Promise(done => {
  document.getElementById("play").click();
  const timer = setInterval(() => {
    if (page.simulated.pieces.filter(Boolean).length === 32) return;
    clearInterval(timer);
    document.getElementById("pieces").click();
    setTimeout(() => done(page.library.placement(page.simulated.pieces)), 500);
  }, 10);
})
