// What the kinds of things are, in plain words (mobjinfo of info.c, P_SpawnMapThing of p_mobj.c).

/** By classes, as the map has them: kinds and names. */
const CLASSES = /** @type {[string, Record<number, string>][]} */ ([
  ['start', { 1: 'player 1 start', 2: 'player 2 start', 3: 'player 3 start', 4: 'player 4 start', 11: 'deathmatch start' }],
  ['monster', {
    3004: 'former human', 9: 'former sergeant', 65: 'former commando', 3001: 'imp', 3002: 'demon', 58: 'spectre', 3006: 'lost soul', 3005: 'cacodemon', 69: 'hell knight',
    3003: 'baron of hell', 68: 'arachnotron', 71: 'pain elemental', 66: 'revenant', 67: 'mancubus', 64: 'arch-vile', 7: 'spider mastermind', 16: 'cyberdemon', 84: 'SS guard',
    72: 'Commander Keen', 88: 'boss brain', 89: 'boss shooter',
  }],
  ['weapon', {
    2005: 'chainsaw', 2001: 'shotgun', 82: 'super shotgun', 2002: 'chaingun', 2003: 'rocket launcher', 2004: 'plasma gun', 2006: 'BFG 9000',
  }],
  ['ammunition', {
    2007: 'clip', 2008: '4 shells', 2010: 'rocket', 2047: 'cell', 2048: 'box of bullets', 2049: 'box of shells', 2046: 'box of rockets', 17: 'cell pack', 8: 'backpack',
  }],
  ['key', { 5: 'blue keycard', 6: 'yellow keycard', 13: 'red keycard', 38: 'red skull key', 39: 'yellow skull key', 40: 'blue skull key' }],
  ['item', {
    2011: 'stimpack', 2012: 'medikit', 2014: 'health bonus', 2015: 'armour bonus', 2018: 'green armour', 2019: 'blue armour', 2013: 'soulsphere', 83: 'megasphere',
    2022: 'invulnerability', 2023: 'berserk', 2024: 'partial invisibility', 2025: 'radiation suit', 2026: 'computer map', 2045: 'light amplification visor',
  }],
  ['place', { 14: 'teleport destination', 87: 'target of the boss shooter' }],
  ['decoration', {
    2035: 'barrel', 70: 'burning barrel', 48: 'tall techno column', 30: 'tall green column', 31: 'short green column', 32: 'tall red column', 33: 'short red column',
    36: 'short green column with a heart', 37: 'short red column with a skull', 47: 'stalagmite', 43: 'burnt tree', 54: 'large brown tree', 2028: 'floor lamp',
    85: 'tall techno lamp', 86: 'short techno lamp', 34: 'candle', 35: 'candelabra', 44: 'tall blue torch', 45: 'tall green torch', 46: 'tall red torch', 55: 'short blue torch',
    56: 'short green torch', 57: 'short red torch', 41: 'evil eye', 42: 'floating skull rock', 25: 'impaled human', 26: 'twitching impaled human', 27: 'skull on a pole',
    28: 'five skulls on a pole', 29: 'pile of skulls and candles', 49: 'hanging victim, twitching, solid', 50: 'hanging victim, arms out, solid',
    51: 'hanging victim, one-legged, solid', 52: 'hanging pair of legs, solid', 53: 'hanging leg, solid', 59: 'hanging victim, arms out', 60: 'hanging pair of legs',
    61: 'hanging victim, one-legged', 62: 'hanging leg', 63: 'hanging victim, twitching', 73: 'hanging victim, guts removed', 74: 'hanging victim, guts and brain removed',
    75: 'hanging torso, looking down', 76: 'hanging torso, open skull', 77: 'hanging torso, looking up', 78: 'hanging torso, brain removed', 10: 'bloody mess',
    12: 'bloody mess', 15: 'dead player', 18: 'dead former human', 19: 'dead former sergeant', 20: 'dead imp', 21: 'dead demon', 22: 'dead cacodemon', 23: 'dead lost soul',
    24: 'pool of blood and flesh', 79: 'pool of blood', 80: 'pool of blood', 81: 'pool of brains',
  }],
]);

/** @type {Map<number, { name: string, group: string }>} */
const KINDS = new Map(CLASSES.flatMap(([group, kinds]) => Object.entries(kinds).map(([kind, name]) => [Number(kind), { name, group }])));

/** What a kind is called, and to which class it belongs; a kind that the game doesn't know has no class. @param {number} kind */
export const kindOf = (kind) => KINDS.get(kind) ?? { name: 'unknown to the game', group: '' };
/** All kinds that have a name. */
export const KNOWN = [...KINDS.keys()];
