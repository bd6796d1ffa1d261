/** What the codes of `why` say, in document 01's words. */
import { TABLE } from './words.js';

/** What a second is. */
export const KINDS = Object.freeze(TABLE.why.kinds);

/** What a moving second is in its trip, the first of these that it is; request Two. */
export const ROLES = Object.freeze(TABLE.why.roles);

/** Which rule gave a gear its minimum speed: the lowest gear's, the next gear's three, that of the gears above. */
export const RULES = Object.freeze(TABLE.why.rules);

/** Which sentence gave the first choice. */
export const SENTENCES = Object.freeze(TABLE.why.sentences);

/** Why the clutch is as it is. */
export const CLUTCHES = Object.freeze(TABLE.why.clutches);
