/* The declared types are those of the module: what it exports, `made`, may stand for what is declared, and no name is in one of them alone. Of each class that counts for what it makes. */
import * as declared from "../timeweave.mjs";
import * as made from "./made.mjs";

type Same<One, Other> = [Exclude<keyof One, keyof Other>, Exclude<keyof Other, keyof One>] extends [never, never] ? true : false;

export const names: Same<typeof made, typeof declared> = true;
export const values: Omit<typeof declared, "Timeweave"> = made;
export const shown: Same<made.Timeweave, declared.Timeweave> = true;
export const loaded: (...words: Parameters<typeof declared.load>) => Promise<made.Timeweave> = made.load;
