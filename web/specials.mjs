// What the specials of linedefs and of sectors do, in plain words (P_UseSpecialLine, P_CrossSpecialLine and P_ShootSpecialLine of p_spec.c and
// p_switch.c; P_SpawnSpecials and P_PlayerInSpecialSector of p_spec.c).

const BY = /** @type {Record<string, string>} */ ({ D: 'by hand', S: 'by a switch', W: 'when crossed', G: 'by a shot' });
const OFTEN = /** @type {Record<string, string>} */ ({ 1: 'once', R: 'again and again' });

/** What is done, and by which numbers: D by hand, S by a switch, W when crossed, G by a shot; 1 once, R again and again. */
const ACTIONS = [
  ['door opens, waits and closes', 'DR 1, W1 4, S1 29, SR 63, WR 90'],
  ['blue door opens, waits and closes', 'DR 26'],
  ['yellow door opens, waits and closes', 'DR 27'],
  ['red door opens, waits and closes', 'DR 28'],
  ['door opens', 'D1 31, W1 2, GR 46, SR 61, WR 86, S1 103'],
  ['blue door opens', 'D1 32'],
  ['red door opens', 'D1 33'],
  ['yellow door opens', 'D1 34'],
  ['door closes', 'W1 3, SR 42, S1 50, WR 75'],
  ['door closes, and opens after 30 seconds', 'W1 16, WR 76'],
  ['door opens fast, waits and closes', 'WR 105, W1 108, S1 111, SR 114, DR 117'],
  ['door opens fast', 'WR 106, W1 109, S1 112, SR 115, D1 118'],
  ['door closes fast', 'WR 107, W1 110, S1 113, SR 116'],
  ['blue door opens fast', 'SR 99, S1 133'],
  ['red door opens fast', 'SR 134, S1 135'],
  ['yellow door opens fast', 'SR 136, S1 137'],
  ['lift lowers, waits and rises', 'W1 10, S1 21, SR 62, WR 88'],
  ['fast lift lowers, waits and rises', 'WR 120, W1 121, S1 122, SR 123'],
  ['lift goes up and down for ever', 'W1 53, WR 87'],
  ['lift for ever stops', 'W1 54, WR 89'],
  ['floor rises to the next higher one', 'S1 18, SR 69, W1 119, WR 128'],
  ['floor rises fast to the next higher one', 'WR 129, W1 130, S1 131, SR 132'],
  ['floor rises to the next higher one, and takes this flat', 'S1 20, W1 22, G1 47, SR 68, WR 95'],
  ['floor rises by 24', 'W1 58, WR 92'],
  ['floor rises by 24, and takes this flat', 'S1 15, SR 66'],
  ['floor rises by 24, and takes this flat and special', 'W1 59, WR 93'],
  ['floor rises by 32, and takes this flat', 'S1 14, SR 67'],
  ['floor rises by 512', 'S1 140'],
  ['floor rises to the lowest ceiling', 'W1 5, G1 24, SR 64, WR 91, S1 101'],
  ['floor rises to 8 below the lowest ceiling, and crushes', 'S1 55, W1 56, SR 65, WR 94'],
  ['floor rises by the shortest lower texture', 'W1 30, WR 96'],
  ['floor lowers to the highest one beside it', 'W1 19, SR 45, WR 83, S1 102'],
  ['floor lowers fast to 8 above the highest one beside it', 'W1 36, SR 70, S1 71, WR 98'],
  ['floor lowers to the lowest one beside it', 'S1 23, W1 38, SR 60, WR 82'],
  ['floor lowers to the lowest one beside it, and takes its flat and special', 'W1 37, WR 84'],
  ['floor sinks in the middle of a rising ring', 'S1 9'],
  ['stairs rise by 8 each', 'S1 7, W1 8'],
  ['stairs rise fast by 16 each', 'W1 100, S1 127'],
  ['ceiling rises to the highest one beside it', 'W1 40'],
  ['ceiling lowers to the floor', 'S1 41, SR 43'],
  ['ceiling lowers to 8 above the floor', 'W1 44, WR 72'],
  ['ceiling crushes slowly', 'W1 25, S1 49, WR 73'],
  ['ceiling crushes fast', 'W1 6, WR 77'],
  ['ceiling crushes slowly, in silence', 'W1 141'],
  ['crushing ceiling stops', 'W1 57, WR 74'],
  ['light turns to the brightest beside it', 'W1 12, WR 80'],
  ['light turns to 255', 'W1 13, WR 81, SR 138'],
  ['light turns to 35', 'W1 35, WR 79, SR 139'],
  ['light turns to the lowest beside it', 'W1 104'],
  ['light blinks', 'W1 17'],
  ['teleporter', 'W1 39, WR 97'],
  ['teleporter for monsters alone', 'W1 125, WR 126'],
  ['exit', 'S1 11, W1 52'],
  ['secret exit', 'S1 51, W1 124'],
];
const SCROLLING = 48;

/** @type {Map<number, string>} */
const LINEDEFS = new Map([[SCROLLING, 'wall scrolls to the left']]);
for (const [words, numbers] of ACTIONS) {
  for (const [, by, often, number] of numbers.matchAll(/([DSWG])([1R]) (\d+)/g)) LINEDEFS.set(Number(number), `${words}, ${BY[by]}, ${OFTEN[often]}`);
}

const SECTORS = /** @type {Record<number, string>} */ ({
  1: 'light flickers now and then', 2: 'light blinks fast', 3: 'light blinks slowly', 4: 'light blinks fast, harms by 20 every 32 tics', 5: 'harms by 10 every 32 tics',
  7: 'harms by 5 every 32 tics', 8: 'light glows', 9: 'secret', 10: 'closes like a door after 30 seconds', 11: 'harms by 20 every 32 tics, and ends the level',
  12: 'light blinks slowly, with others', 13: 'light blinks fast, with others', 14: 'opens like a door after 5 minutes', 16: 'harms by 20 every 32 tics',
  17: 'light flickers as a fire',
});

/** What a linedef's special does. @param {number} special */
export const linedefSpecial = (special) => special ? LINEDEFS.get(special) ?? "none of the game's" : 'none';
/** What a sector's special does. @param {number} special */
export const sectorSpecial = (special) => special ? SECTORS[special] ?? "none of the game's: a player on its floor ends the game" : 'none';
