// The words for states and refusals.
const WORDS = { UNDELEGATED: "U", DELEGATED: "D", RD: "RD", RTT: "RTT", DATA: "DATA", REC: "REC", REC_AUX: "AUX" };
const MEANINGS = {
  UNDELEGATED: "the host's", DELEGATED: "the RMM's", RD: "a realm descriptor", RTT: "a translation table",
  DATA: "a realm's memory", REC: "a virtual CPU", REC_AUX: "a REC's auxiliary",
};
const STATUS = { 1: "RMI_ERROR_INPUT", 2: "RMI_ERROR_REALM", 3: "RMI_ERROR_REC", 4: "RMI_ERROR_RTT" };
const HARDWARE = "The hardware refuses, and no command is involved: the page is not the host's."
  + " On a machine the access raises a granule protection fault.";
const REFUSALS = {
  NoBuild: "There is no such build.",
  Aborting: "The build is being aborted.",
  BadOrder: "A block has at most 512 pages.",
  NotLeased: "The build has no page $1.",
  RealmThere: "The build has a realm already.",
  NoRealm: "The build has no realm.",
  NothingToUndo: "There is nothing to undo, or no mark to go back to.",
  RecRunning: "A REC that would have to go is running.",
  JournalFull: "The build has 512 operations open.",
  HistoryFull: "The rest of the build's room in the history is kept for its undos.",
  NoBlock: "No 2^$1 pages in a row, from a multiple of 2^$1 on, are free.",
  NoVmid: "All VMIDs are in use.",
  Rmi: "The RMM refuses: $status.",
};

const counted = (n, one) => n + " " + one + (n === 1 ? "" : "s");

// A refusal in general words, for a turn for which the data has no line.
function refusalText(turn) {
  const [word] = turn.step.split(" "), name = turn.answer.split(" ")[2], [, first, index] = turn.numbers;
  if (name === "Rmi" && (word === "fill" || word === "peek")) return HARDWARE;
  const status = (STATUS[first] || "status " + first) + (first === 4 ? ", index " + index : "");
  return (REFUSALS[name] || "Refused.").replace("$status", status).replaceAll("$1", first);
}
