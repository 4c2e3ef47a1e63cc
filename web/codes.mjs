// What the codes of findings and warnings mean, as the tables of codes have it. docs/wadlens.1 has them under FINDINGS, WARNINGS and CODES.

// tools/tables writes from here
/** @type {Record<string, string>} */
const MEANINGS = {
  F1: "a lump isn't there behind the label",
  F2: "a lump isn't inside its file",
  F3: "a linedef's vertex isn't there",
  F4: "a linedef's sidedef isn't there",
  F5: "a sidedef's sector isn't there",
  F6: "a seg's vertex isn't there",
  F7: "a seg's linedef isn't there",
  F8: "a seg's side is neither 0 nor 1",
  F9: "a seg's linedef has no sidedef on the seg's side",
  F10: "an ssector's segs aren't all there",
  F11: "a node's child isn't there",
  F12: "a node's origin is outside -16384 to 16383",
  F13: 'a node is named more than once, or is the root and named',
  F14: "a node isn't reached from the root",
  F15: 'an ssector is named more than once',
  F16: "an ssector isn't reached from the root",
  F17: 'the level has no ssector',
  F18: 'the level has more than 32767 nodes',
  N1: "a lump's name isn't the usual one",
  N2: 'a lump has bytes left over',
  N3: 'a linedef is two-sided, without a back sidedef',
  N4: 'a linedef is without a front sidedef',
  N5: 'a linedef is without length',
  N6: 'an ssector is without segs',
  N7: 'a node is without direction',
  N8: "REJECT hasn't as many bytes as are wanted",
  N9: "BLOCKMAP hasn't as many words as are wanted",
  N10: "a block's list isn't inside BLOCKMAP, or has no end",
  N11: 'the level has no player 1 start',
  N12: 'a vertex is outside -16384 to 16383',
  W1: "a sector isn't closed: its outline has a gap or an extra line",
  W2: 'a texture that is seen is missing',
  W3: 'a thing stands in the void',
  W4: "a linedef's special goes by a tag that no sector has",
  W5: 'the segs of an ssector face several sectors',
  W6: 'a linedef lies on another',
  W7: 'a start of players 2 to 4 is missing',
  W8: 'the level has fewer than 4 deathmatch starts',
  W9: "a texture isn't there: neither TEXTURE1 nor TEXTURE2 lists it",
  W10: "a flat isn't there: no entry has its name",
  W11: "a thing's type is none of the game's",
  W12: 'this number is kept for a later version',
  W13: 'this number is kept for a later version',
  W14: "a linedef's special is none of the game's",
  W15: "a linedef's special goes by the tag, and the tag is 0",
  W16: "a linedef's special can't be crossed, or has no destination",
  W17: "a linedef's use ends or spoils the game",
  W18: "a player on a sector's floor ends the game",
  W19: "the level has no exit, or a key isn't there",
  W20: 'this number is kept for a later version',
  W21: 'a thing ends the reading of things, is in no skill, or ends the game',
  W22: 'the level passes a limit of the game, or a texture lacks a patch',
  W23: 'this number is kept for a later version',
  W24: 'this number is kept for a later version',
  W25: "a flat isn't between F_START and F_END",
};
const KINDS = /** @type {Record<string, string>} */ ({ F: 'Fault', N: 'Note', W: 'Warning' });
const ENDING = ['N4', 'N11', 'W9', 'W10', 'W11', 'W17', 'W18', 'W22'];
/** @type {Record<string, { text: string, parts: string[] }>} */
const EXPLANATIONS = {
  F1: {
    text: 'lump missing after the label',
    parts: [
      'The directory ends before all ten lumps of the level, THINGS to BLOCKMAP, stand behind its label. wadlens calls such a level incomplete.',
      'The game takes these lumps by their places, and ends with an error where the directory ends (W_CacheLumpNum). If another file was loaded behind this one, the game takes lumps of that file.',
      'Take a whole copy of the file, or save the level again in an editor, with nodes, REJECT and BLOCKMAP.',
    ],
  },
  F2: {
    text: 'lump outside its file',
    parts: [
      "A lump's place or size is negative, or the lump goes past the end of its file. wadlens calls such a level outside.",
      "The game ends with an error as it reads a lump that its file cuts short (W_ReadLump). The game doesn't test for a negative place or size.",
      'Take a whole copy of the file, or save the level again in an editor.',
    ],
  },
  F3: {
    text: 'linedef vertex names none',
    parts: [
      "A linedef begins or ends at a vertex that isn't there.",
      "The game doesn't test the number (P_LoadLineDefs): it reads memory that isn't its own as the vertex. The linedef runs to a place by chance, or the game crashes.",
      'Draw the linedef again in an editor, then build the nodes. A level with more than 32768 vertexes is for ports: check it with --wide.',
    ],
  },
  F4: {
    text: 'linedef side names none',
    parts: [
      "A linedef names a sidedef that isn't there.",
      "The game doesn't test the number (P_LoadLineDefs): it reads memory that isn't its own as the side's sector, and then writes to that sector (P_GroupLines). A crash is likely. Chocolate Doom ends at a seg on such a side.",
      'Give the linedef a new side in an editor, then build the nodes. A level with more than 32768 sidedefs is for ports: check it with --wide.',
    ],
  },
  F5: {
    text: 'sidedef sector names none',
    parts: [
      "A sidedef names a sector that isn't there.",
      "The game doesn't test the number (P_LoadSideDefs): memory that isn't its own stands for the sector. The game writes there as it loads the level (P_GroupLines), and a crash is likely. A sidedef that no linedef has does no harm.",
      'Give the side a sector in an editor, then build the nodes.',
    ],
  },
  F6: {
    text: 'seg vertex names none',
    parts: [
      "A seg begins or ends at a vertex that isn't there.",
      "The game doesn't test the number (P_LoadSegs). To draw the seg, the game reads memory that isn't its own as the vertex (R_AddLine): the wall is missing or stands in a wrong place, or the game crashes.",
      'Build the nodes again. A level with more than 32768 vertexes is for ports: check it with --wide.',
    ],
  },
  F7: {
    text: 'seg linedef names none',
    parts: [
      "A seg names a linedef that isn't there.",
      "The game doesn't test the number (P_LoadSegs): it reads memory that isn't its own as the linedef, and follows a sidedef's number found there. A crash is likely as the level is loaded.",
      'Build the nodes again: they may be older than the linedefs. A level with more than 32768 linedefs is for ports: check it with --wide.',
    ],
  },
  F8: {
    text: 'seg side is not 0 or 1',
    parts: [
      'A seg lies on side 0 of its linedef, the front, or on side 1, the back. This seg has another number.',
      "The game doesn't test the number (P_LoadSegs). It takes what stands before or behind the linedef's two sidedef numbers for another one. The seg gets a wrong sidedef and sector, or the game reads memory that isn't its own, and may crash.",
      'Build the nodes again.',
    ],
  },
  F9: {
    text: "seg's linedef has no side there",
    parts: [
      'A seg lies on a side of its linedef, and the linedef has no sidedef there.',
      "The game reads memory that isn't its own, before the first sidedef, as the side and its sector (P_LoadSegs). The wall is drawn by chance, or the game crashes. Chocolate Doom ends with an error as it loads the level.",
      'Give the linedef this side, or build the nodes again: they may be older than the linedefs.',
    ],
  },
  F10: {
    text: "ssector's segs out of range",
    parts: [
      'An ssector has a run of segs, and not all of them are there.',
      "The game doesn't test this. Without the first seg it reads the ssector's sector from memory that isn't its own (P_GroupLines). Without others it reads walls from there (R_Subsector, P_CrossSubsector). A crash is likely.",
      'Build the nodes again. A level with more than 32768 segs is for ports: check it with --wide.',
    ],
  },
  F11: {
    text: 'child names nothing',
    parts: [
      "A node has two children, each a node or an ssector. One of them isn't there.",
      "At an ssector that isn't there the game ends with an error, as it draws (R_Subsector) or traces a sight (P_CrossSubsector). To place a thing there, or to follow a node that isn't there, the game reads memory that isn't its own (R_PointInSubsector).",
      'Build the nodes again.',
    ],
  },
  F12: {
    text: 'node origin out of range',
    parts: [
      'The line by which a node divides the level begins outside -16384 to 16383.',
      "The game's numbers have 16 bits for whole units. If a place is 32768 units or more away from there in x or y, the difference wraps. At a slanted line the game may then take the wrong side (R_PointOnSide): it draws walls in a wrong order, and puts things into a wrong sector.",
      'Move the level nearer to (0, 0), or make it smaller, then build the nodes.',
    ],
  },
  F13: {
    text: 'node named twice or root named',
    parts: [
      'A node is a child more than once, or the root, the last node, is a child. So the nodes are no tree.',
      "If children lead back to the node, the game can hang as it looks for a place's sector (R_PointInSubsector), and can run out of stack as it draws (R_RenderBSPNode). Otherwise it draws twice all that the node leads to.",
      'Build the nodes again.',
    ],
  },
  F14: {
    text: 'node not reached',
    parts: [
      'No children lead from the root, the last node, to this node.',
      'The game begins at the root (R_RenderBSPNode, R_PointInSubsector), so it never uses this node. An ssector to which no other node leads is never used either: see F16.',
      'Build the nodes again. In NODES the root has to come last.',
    ],
  },
  F15: {
    text: 'ssector named more than once',
    parts: [
      'An ssector is a child more than once, so it stands for two parts of the level.',
      "A thing in either part stands in this ssector's sector (R_PointInSubsector), which is likely wrong in one of them. The game draws the ssector with both parts (R_RenderBSPNode).",
      'Build the nodes again.',
    ],
  },
  F16: {
    text: 'ssector not reached',
    parts: [
      'No children lead from the root to this ssector. Without nodes only ssector 0 is reached.',
      'The game never draws this ssector (R_RenderBSPNode), and may let a sight through its walls (P_CrossBSPNode). The walls still stop what moves, since moves go by BLOCKMAP (P_BlockLinesIterator).',
      'Build the nodes again.',
    ],
  },
  F17: {
    text: 'no ssector',
    parts: [
      'SSECTORS is empty. Most likely the level was saved without nodes.',
      "The game looks up the ssector of each thing that it places, and reads memory that isn't its own (R_PointInSubsector). A crash is likely. If the game comes to draw the level, it ends with an error (R_Subsector).",
      'Build the nodes.',
    ],
  },
  F18: {
    text: 'more than 32767 nodes',
    parts: [
      'A child has 15 bits for a number, so nodes can name 32768 ssectors. A tree of more than 32767 nodes has more.',
      "From 32769 to 65536 nodes the game takes the root's number for that of an ssector (R_PointInSubsector, R_RenderBSPNode). It draws this ssector alone, and all things stand in its sector.",
      'Make the level smaller, or build extended nodes, which are for ports.',
    ],
  },
  N1: {
    text: 'lump name differs',
    parts: [
      "A lump behind the label hasn't the usual name of its place. wadlens calls such a level incomplete; without THINGS it sees no level.",
      "The game takes a level's lumps by their places, and doesn't look at their names (P_SetupLevel). A wrong lump is read as if it were the right one.",
      'Put the ten lumps behind the label in order, under their usual names. Editors and ports look at these.',
    ],
  },
  N2: {
    text: 'bytes left over',
    parts: [
      'A lump has bytes behind its last whole record.',
      "The game divides the lump's length by that of a record, and leaves the rest out (P_LoadThings and the like).",
      'Look whether the lump was cut, or has the longer records of another game. An editor that saves the level again writes whole records.',
    ],
  },
  N3: {
    text: 'two-sided flag without side 1',
    parts: [
      'A linedef is flagged as two-sided, and has no back sidedef.',
      "Nothing moves through it (PIT_CheckLine). As the sector behind it the game takes memory that isn't its own, by way of a sidedef before the first one (P_LoadSegs). An opening may show, a sight may pass, or the game crashes. Chocolate Doom has a stand-in for this sector.",
      'Clear the flag, or give the linedef its back sidedef.',
    ],
  },
  N4: {
    text: 'no side 0',
    parts: [
      'A linedef has no front sidedef.',
      "The game counts each linedef in its front sector (P_GroupLines), here through a sector that isn't there, at address 0, and ends as it loads the level. A sound level with N4 isn't one that the game loads.",
      'Turn the linedef round if it has a back sidedef, otherwise delete it. Then build the nodes.',
    ],
  },
  N5: {
    text: 'linedef of no length',
    parts: [
      'A linedef begins and ends at the same place.',
      'The game draws nothing for it (R_AddLine). If BLOCKMAP lists it, a one-sided or blocking one still stops what moves over the place, like a thin post (PIT_CheckLine). Nothing gets from one side of it to the other, so nothing sets its special off.',
      'Delete the linedef, or move one of its ends, then build the nodes.',
    ],
  },
  N6: {
    text: 'ssector without segs',
    parts: [
      'An ssector has a part of the level, but no segs.',
      "The game draws nothing for it (R_Subsector). Things there stand in the sector of the seg that the ssector names as its first (P_GroupLines). Most likely this seg is another ssector's.",
      'Build the nodes again, if need be with another builder.',
    ],
  },
  N7: {
    text: 'partition without direction',
    parts: [
      'The line by which a node divides the level has no direction.',
      'The game takes every place to be in front (R_PointOnSide). Things that belong to the back stand in a sector of the front. Walls of the back are drawn after the front or not at all (R_RenderBSPNode), and hardly stop a sight (P_CrossBSPNode).',
      'Delete the linedefs of no length (N5), then build the nodes.',
    ],
  },
  N8: {
    text: 'REJECT size',
    parts: [
      'REJECT has a bit for each pair of sectors. This one is shorter or longer.',
      "The game reads past a short one, into memory that isn't its own (P_CheckSight): by chance some monsters never see a player, and some blasts harm nobody. Bytes too many do no harm.",
      'Build REJECT again. Zeros of the right size will do: the game then traces each sight.',
    ],
  },
  N9: {
    text: 'BLOCKMAP short',
    parts: [
      "BLOCKMAP is shorter than its head of 8 bytes, or hasn't a word for each block.",
      "The game doesn't test this (P_LoadBlockMap, P_BlockLinesIterator): it reads memory that isn't its own as the number of blocks or as lists. By chance walls stop nothing, or the game crashes.",
      "Build BLOCKMAP again. Some ports build one in place of an empty one; the released game doesn't.",
    ],
  },
  N10: {
    text: 'block list faulty',
    parts: [
      "The list of a block's linedefs begins outside BLOCKMAP, or has no end in it.",
      "The game doesn't test this (P_BlockLinesIterator): as something moves or shoots through the block, it reads memory that isn't its own as numbers of linedefs. By chance walls stop nothing, or the game crashes.",
      'Build BLOCKMAP again. A level whose lists begin behind word 32767 is for ports: make it smaller, or check it with --wide.',
    ],
  },
  N11: {
    text: 'no player 1 start',
    parts: [
      'No thing is of type 1, where player 1 starts.',
      "Except in a deathmatch, the player has no body. As the game moves the player, it reads and writes memory that isn't its own (P_PlayerThink). A crash is likely. Chocolate Doom ends with an error as it loads the level.",
      'Place a thing of type 1.',
    ],
  },
  N12: {
    text: 'vertex out of range',
    parts: [
      'A vertex is outside -16384 to 16383.',
      "The game's numbers have 16 bits for whole units. No difference wraps while places are less than 32768 units apart in x and in y. From there on walls are drawn in wrong directions (R_PointToAngle), and a linedef of such a length runs the wrong way (P_LoadLineDefs).",
      'Move the level nearer to (0, 0), or make it smaller, then build the nodes.',
    ],
  },
  W1: {
    text: 'sector not closed',
    parts: [
      "At the vertex that is reported, the sector's outline has a gap or an extra line: more of its sides begin there than end, or fewer.",
      'The game ends a floor and a ceiling only at a seg (R_RenderSegLoop). In a gap those of another sector run in, or nothing is drawn (a hall of mirrors).',
      'Draw the missing line, or give the wrong side its sector, then build the nodes. Ignore W1 if a trick needs the sector open.',
    ],
  },
  W2: {
    text: 'wall without texture',
    parts: [
      'By its sectors\' heights a part of a wall can be seen, but its texture is "-".',
      'The game draws nothing for it (R_RenderSegLoop). In place of the middle of a one-sided wall old pictures show (a hall of mirrors). In place of an upper or a lower the ceiling or the floor behind it runs on, or old pictures show.',
      'Choose a texture. Ignore W2 where no player sees the wall, or if a trick needs it bare.',
    ],
  },
  W3: {
    text: 'thing in the void',
    parts: [
      'A thing stands in the void, outside the walls of the level.',
      'The game has a sector for every place, so the thing stands in one (R_PointInSubsector). Hardly anybody gets there. A monster or an item counts for the totals all the same (P_SpawnMapThing). A player who starts there is shut out.',
      'Move the thing inside, or delete it.',
    ],
  },
  W4: {
    text: 'tag of no sector',
    parts: [
      "A linedef's special goes by its tag to a sector, and no sector has this tag.",
      "The special finds no sector, and does nothing (P_FindSectorFromLineTag). A switch doesn't even turn (P_UseSpecialLine), and a teleporter takes nobody anywhere (EV_Teleport). Exits, scrolling walls and doors opened by hand don't go by the tag: they aren't told.",
      'Give the sector this tag, or the linedef the tag of the sector.',
    ],
  },
  W5: {
    text: 'segs face several sectors',
    parts: [
      'An ssector is part of one sector, but its segs face more than one.',
      "The game takes the sector of the first seg for the whole ssector (P_GroupLines). Things there stand on that sector's floor. Floor, ceiling and walls are drawn by that sector's heights and light (R_Subsector).",
      "Look for sectors that aren't closed (W1), and for linedefs that lie on others (W6) or cross others without a vertex. Then build the nodes.",
    ],
  },
  W6: {
    text: 'linedef on another',
    parts: [
      'A linedef has the same two ends as an earlier one.',
      'The game keeps both. A thing is stopped if either stops it (PIT_CheckLine). If both let a thing through, the specials of both can act (P_TryMove). The nodes decide which one is drawn.',
      'Delete one of them, look at the sectors on both sides, then build the nodes.',
    ],
  },
  W7: {
    text: 'no start of players 2 to 4',
    parts: [
      'No thing is of type 2, 3 or 4, where players 2 to 4 start. The first player without a start is reported.',
      "A single game doesn't need the start. In a cooperative game the player has no body (see N11), and a crash is likely.",
      'Place the starts, or ignore W7 in a level for one player.',
    ],
  },
  W8: {
    text: 'fewer than 4 deathmatch starts',
    parts: [
      'Fewer than four things are of type 11, where players start in a deathmatch.',
      "The game ends with an error as it loads the level for a deathmatch (G_DeathMatchSpawnPlayer). Other games don't need these things.",
      "Place at least four of them; the game uses ten at most. Ignore W8 in a level that isn't for deathmatch.",
    ],
  },
  W9: {
    text: 'texture not there',
    parts: [
      'A sidedef has a texture that neither TEXTURE1 nor TEXTURE2 lists.',
      'The game ends with an error as it loads the level (R_TextureNumForName), even if nobody can see this part of the wall.',
      'With --base name the files that the level stands on, so that their textures count. Otherwise choose another texture, or "-" for none.',
    ],
  },
  W10: {
    text: 'flat not there',
    parts: [
      'A sector has a flat for its floor or its ceiling, and no lump has that name.',
      'The game ends with an error as it loads the level (R_FlatNumForName).',
      'With --base name the files that the level stands on, so that their flats count. Otherwise choose another flat.',
    ],
  },
  W11: {
    text: 'thing of no known type',
    parts: [
      "A thing's type is none of the game's, and the thing appears in some skill.",
      'In such a skill the game ends with an error as it loads the level (P_SpawnMapThing).',
      'Change the type, or delete the thing. Ignore W11 if the level is for a port that knows the type.',
    ],
  },
  W12: {
    text: 'reserved',
    parts: [
      'This number is kept for a later version, and no level is looked at for it.',
      'Nothing is told under it.',
      'Nothing has to be done.',
    ],
  },
  W13: {
    text: 'reserved',
    parts: [
      'This number is kept for a later version, and no level is looked at for it.',
      'Nothing is told under it.',
      'Nothing has to be done.',
    ],
  },
  W14: {
    text: 'unknown special',
    parts: [
      "A linedef's special is none of the game's.",
      'Nothing happens when something crosses, uses or shoots at the linedef (P_CrossSpecialLine, P_UseSpecialLine, P_ShootSpecialLine). Other engines have specials of their own.',
      "Choose one of the game's specials, or ignore W14 if the level is for a port that knows this one.",
    ],
  },
  W15: {
    text: 'special with tag 0',
    parts: [
      "A linedef's special goes by its tag, and the tag is 0.",
      'The game compares 0 like any other tag (P_FindSectorFromLineTag): the special moves every sector without a tag, or changes its light.',
      'Give the linedef a tag, and the sectors that are meant the same one.',
    ],
  },
  W16: {
    text: 'special that acts on nothing',
    parts: [
      "A linedef's special acts when something crosses it, and nothing can; or it teleports, and no sector with its tag has a destination.",
      "A linedef isn't crossed by what it stops (PIT_CheckLine, P_TryMove). A teleporter looks for a thing of type 14 in the sectors of its tag (EV_Teleport), and does nothing without one.",
      'Give the linedef a back sidedef, or clear the flag that blocks. Place a thing of type 14 in the sector.',
    ],
  },
  W17: {
    text: 'use ends or spoils the game',
    parts: [
      "The use of a linedef's special ends the game, or spoils a sector.",
      "A door in a wall ends it (EV_VerticalDoor), and so does a 31st platform (P_AddActivePlat). A 31st ceiling can't be stopped (P_AddActiveCeiling). A list has room for 20 higher neighbours (P_FindNextHighestFloor). A donut (EV_DoDonut) and a floor that changes (EV_DoFloor) may read what isn't there.",
      "Put the special on a linedef with two sides, give fewer sectors the tag, or draw the sector's linedefs in another order.",
    ],
  },
  W18: {
    text: 'floor that ends the game',
    parts: [
      "A sector's special is none of the game's.",
      "Once a player stands on the sector's floor, the game ends with an error (P_PlayerInSpecialSector).",
      'Choose another special. Ignore W18 where no player can stand.',
    ],
  },
  W19: {
    text: 'no exit, or a key missing',
    parts: [
      "Nothing ends the level, or a linedef wants a key that isn't there in some skill.",
      "Without an exit the level goes on for ever. Locked doors stay shut (EV_VerticalDoor, EV_DoLockedDoor); keys don't last from level to level. Things for several players aren't there for one.",
      'Place an exit, or the key in each skill. Ignore W19 in a level for deathmatch, where players have all keys.',
    ],
  },
  W20: {
    text: 'reserved',
    parts: [
      'This number is kept for a later version, and no level is looked at for it.',
      'Nothing is told under it.',
      'Nothing has to be done.',
    ],
  },
  W21: {
    text: 'thing unread, unplaced or deadly',
    parts: [
      'A thing ends the reading of things, appears in no skill, or ends the game as it shoots.',
      'In a level of the first game reading ends at the first thing of the second (P_LoadThings). Without a target the shot of a shooter of cubes divides by 0 (A_BrainSpit), and the game has room for 32 targets.',
      'Delete the thing, or give it a skill. Place a thing of type 87 in each skill of the shooter.',
    ],
  },
  W22: {
    text: 'limit of the game passed',
    parts: [
      'The level has more of something than the game has room for, or a texture of its files lacks a patch.',
      "The game writes past the end of its list, over memory of its own (P_SpawnSpecials), ends with an error (P_AddActivePlat, G_DoSaveGame), doesn't use what is too much (P_SpawnMapThing), or doesn't start (R_InitTextures).",
      'Take away what is too much, or put it into another level. Give the texture patches that the files have.',
    ],
  },
  W23: {
    text: 'reserved',
    parts: [
      'This number is kept for a later version, and no level is looked at for it.',
      'Nothing is told under it.',
      'Nothing has to be done.',
    ],
  },
  W24: {
    text: 'reserved',
    parts: [
      'This number is kept for a later version, and no level is looked at for it.',
      'Nothing is told under it.',
      'Nothing has to be done.',
    ],
  },
  W25: {
    text: 'flat not between its ends',
    parts: [
      "A sector's flat isn't between F_START and F_END, the last of each.",
      'The game gives numbers to the flats between these two (R_InitFlats). The number of another one is outside its table. The game writes there as it loads the level (R_PrecacheLevel). It reads there as it draws the flat (R_DrawPlanes), and mostly ends.',
      'Put the flats that are needed between one F_START and one F_END.',
    ],
  },
};
// tools/tables writes up to here

/** What a code means; nothing where it is none. @param {string} code */
export const meaningOf = (code) => code in MEANINGS ? `${KINDS[code[0]]} ${code}: ${MEANINGS[code]}.` : '';

/** What a code is: a fault, a note or a warning. @param {string} code */
export const classOf = (code) => KINDS[code[0]]?.toLowerCase() ?? '';

/** Whether the released game ends at what has this code. @param {string} code */
export const endsGame = (code) => ENDING.includes(code);

/** Whether it doesn't at all that has this code: it goes on with more deathmatch starts than it uses. @param {string} code */
export const isMixed = (code) => code === 'W22';

/** What a code means to a mapper: what it says, what it is, what the game does with it, and what to do; nothing where it is none. @param {string} code */
export const explanationOf = (code) => Object.hasOwn(EXPLANATIONS, code) ? EXPLANATIONS[code] : null;
