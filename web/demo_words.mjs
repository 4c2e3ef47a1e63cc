// What a demo has, as players name it: skill, map, turns and buttons (doomdef.h, d_event.h and g_game.c).

const SKILLS = ["I'm too young to die", 'Hey, not too rough', 'Hurt me plenty', 'Ultra-Violence', 'Nightmare!'];
const WEAPONS = ['fist', 'pistol', 'shotgun', 'chaingun', 'rocket launcher', 'plasma gun', 'BFG 9000', 'chainsaw'];

/** Bits of a command's buttons. */
const ATTACK = 1, USE = 2, CHANGE = 4, WEAPON_SHIFT = 3, SPECIAL = 128, PAUSE = 1, SAVE = 2, SLOT_SHIFT = 2;
const LONG_TURNS = [111, 214, 221]; // the versions whose turns have two bytes

/** Bits of what DSDA-Doom writes behind a command. */
const ACTIONS = [[1, 'jump'], [2, 'save'], [4, 'load'], [8, 'god mode'], [16, 'noclip']];

/** A turn with its sign: more than none is to the left. @param {number} turn without a sign @param {number} version of the demo */
export function turnOf(turn, version) {
  const all = LONG_TURNS.includes(version) ? 65536 : 256, signed = turn >= all / 2 && turn < all ? turn - all : turn;
  return signed > 0 ? `+${signed}` : String(signed);
}

/** The buttons that are held; nothing where none is. @param {number} buttons */
export function buttonsOf(buttons) {
  if (buttons & SPECIAL) {
    if ((buttons & 3) === PAUSE) return 'pause';
    return (buttons & 3) === SAVE ? `save, slot ${((buttons >> SLOT_SHIFT) & 7) + 1}` : `special ${buttons & 127}`;
  }
  const held = [buttons & ATTACK && 'attack', buttons & USE && 'use', buttons & CHANGE && WEAPONS[(buttons >> WEAPON_SHIFT) & 7], buttons & 64 && 'bit 6'];
  return held.filter(Boolean).join(', ');
}

/**
 * What DSDA-Doom writes behind a command: the actions, and the slots of a saved and of a loaded game.
 * @param {string[]} words of a listing: the bits as two digits, and then the slots
 */
export function actionsOf([bits, ...slots]) {
  const set = parseInt(bits, 16), rest = slots.values();
  const told = ACTIONS.filter(([bit]) => set & Number(bit)).map(([bit, name]) => bit === 2 || bit === 4 ? `${name}${bit === 2 ? ' to' : ''} slot ${rest.next().value}` : String(name));
  return [...told, ...(set >> 5 ? [`bits ${(set & 0xe0).toString(16)}`] : [])].join(', ');
}

/** Words that stand in pairs of a name and a value. @param {string[]} words @returns {[string, string][]} */
function pairsOf(words) {
  return words.length < 2 ? [] : [[words[0].replaceAll('_', ' '), words[1]], ...pairsOf(words.slice(2))];
}

/**
 * What a line before a listing's commands tells of the wrapper, of the options, or of the header's other bytes: names and values.
 * @param {string} line @returns {[string, string][]}
 */
export function optionsIn(line) {
  const [what, ...words] = line.split(' '), comp = words.indexOf('comp');
  if (what === 'wrapper') return [['wrapper', words.slice(0, 2).join(' ')], ...pairsOf(words.slice(2))];
  if (what !== 'options') return [[what, words.join(' ')]];
  return comp < 0 ? pairsOf(words) : [...pairsOf(words.slice(0, comp)), ['comp', words.slice(comp + 1).join(' ')]];
}

/**
 * A map's name; both where nothing tells of which game it is.
 * @param {number} episode @param {number} map @param {string} level the name of a level of its file; none where it has none
 */
function mapOf(episode, map, level) {
  const names = [`E${episode}M${map}`, `MAP${String(map).padStart(2, '0')}`];
  if (/^E\dM\d/.test(level) || episode > 1) return names[0];
  return /^MAP\d\d/.test(level) || map > 9 ? names[1] : names.join(' or ');
}

/**
 * The line of a demo, as players would say it.
 * @param {string} line of `demos` @param {string} level the name of a level of its file; none where it has none
 */
export function demoLine(line, level) {
  return line.replace(/\bskill (\d+), episode (\d+), map (\d+)/, (_, skill, episode, map) => {
    const name = SKILLS[skill];
    return `${name ? `${name} (skill ${Number(skill) + 1})` : `skill ${skill}`}, ${mapOf(Number(episode), Number(map), level)}`;
  });
}
