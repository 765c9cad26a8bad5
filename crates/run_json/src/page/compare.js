// A build left out: the run up to the turn that is shown, beside the same history without the events of that build.
let pair = null;
function makePair() {
  const grids = [new Grid($("run-grid")), new Grid($("other-grid"))];
  return { grids, realms: [new Realms($("run-realms")), new Realms($("other-realms"))] };
}
function differsIn(world, other) {
  return (g) => {
    const one = world.granules[g], two = other.granules[g];
    const isSame = one.state === two.state && one.build === two.build && one.realm === two.realm;
    return !isSame || !isSamePage(world.contents[g], other.contents[g]);
  };
}
function tellVerdict(world, granules, realms) {
  const isSame = granules + realms === 0, open = world.open[out];
  const hasBegun = turns.slice(0, now).some((turn) => turn.build === out && turn.event !== null);
  $("verdict").className = isSame ? "same" : "differ";
  $("verdict").textContent = isSame
    ? "No difference: at this turn " + (hasBegun ? "nothing of build " + out + " is left" : "build " + out + " has done nothing yet")
    : "Build " + out + " makes a difference here: in "
      + counted(granules, "granule") + " and " + counted(realms, "realm");
  $("verdict-why").textContent = open === 0
    ? "Build " + out + " has nothing open at this turn."
    : "Build " + out + " has " + counted(open, "operation") + " open at this turn: what it holds is what differs."
      + " After its abort there is no difference.";
}
function drawCompared(turn) {
  pair = pair || makePair();
  const worlds = [everyone.after(now), othersOf[out].after(now)], differs = differsIn(...worlds);
  const marks = worlds[0].granules.map((_, g) => (differs(g) ? "differs" : ""));
  const [mine, theirs] = worlds.map((world) => world.realms.map((realm) => JSON.stringify(realm)));
  const isMarked = (b) => mine[b] !== theirs[b];
  worlds.forEach((world, k) => {
    pair.grids[k].draw(world, (g) => marks[g]);
    pair.realms[k].draw(world.realms, k === 0 || turn === null || turn.build !== out ? turn : null, isMarked);
  });
  tellVerdict(worlds[0], marks.filter(Boolean).length, mine.filter((_, b) => isMarked(b)).length);
  $("run-title").textContent = now === turns.length
    ? "The run, all " + counted(now, "turn")
    : "The run after turn " + now;
  $("other-title").textContent = "The same history without build " + out;
}
function leaveOut(build) {
  out = build;
  $("without").value = build === null ? "" : build;
  $("compare").hidden = build === null;
  $("machine-part").hidden = $("realm-part").hidden = build !== null;
  $("run").classList.toggle("compared", build !== null);
  (build === null ? $("grid") : $("worlds")).after($("key"));
  draw();
}
