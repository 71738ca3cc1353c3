/** The tree of configurations before a halt, from its definition. */

/** @typedef {{levels: TreeNode[][], count: number, ended: boolean}} Tree `ended`: it has all levels */

/** @returns {TreeNode[]} one for each entry into the node's state that wrote the cell behind the head */
function predecessors(/** @type {Machine} */ { rules }, /** @type {TreeNode} */ node) {
  return rules.flatMap(({ state, symbol, entry }) => {
    const left = entry?.move === 1 ? -1 : 1;
    const there = node.known.get(left) ?? entry?.write;
    if (entry?.next !== node.state || there !== entry.write) return [];
    const known = new Map([...node.known].map(([distance, value]) => [distance - left, value]));
    return [{ state, known: known.set(0, symbol) }];
  });
}

/** @returns {Tree} the levels until one is empty, or until the tree exceeds `most` nodes */
export function buildTree(/** @type {Machine} */ machine, /** @type {number} */ most) {
  const levels = [];
  let count = 0;
  const halting = machine.rules.filter(({ entry }) => entry === null || entry.next === -1);
  let level = halting.map(({ state, symbol }) => ({ state, known: new Map([[0, symbol]]) }));
  while (level.length > 0 && count + level.length <= most) {
    levels.push(level);
    count += level.length;
    level = level.flatMap((node) => predecessors(machine, node));
  }
  return { levels, count, ended: level.length === 0 };
}

/** Whether a node is the start: A, with no other symbol known than 0. */
export const isStart = (/** @type {TreeNode} */ { state, known }) =>
  state === 0 && [...known.values()].every((symbol) => symbol === 0);

/** The cells from left to right, unknown ones as `.`, the head's in brackets. */
export function nodeText(/** @type {TreeNode} */ node) {
  const distances = [...node.known.keys()];
  const low = Math.min(...distances);
  const cells = Array.from({ length: Math.max(...distances) - low + 1 }, (_, k) => {
    const shown = String(node.known.get(low + k) ?? ".");
    return low + k === 0 ? `[${shown}]` : shown;
  });
  return cells.join("");
}
