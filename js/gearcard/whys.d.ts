/** What a second is. */
export const KINDS: readonly string[];
/** What a moving second is in its trip. */
export const ROLES: readonly string[];
/** Which rule gave a gear its minimum speed. */
export const RULES: readonly string[];
/** Which sentence gave the first choice. */
export const SENTENCES: readonly string[];
/** Why the clutch is as it is. */
export const CLUTCHES: readonly string[];
