import { World } from '../program/types';
import { PublicName } from '../skeleton/types';

/** The part of a version number that a change raises. */
export type Advice = 'major' | 'minor' | 'patch';

/** A line of a difference: ' ', '-' or '+', and the text. */
export type DiffLine = [kind: string, text: string];

/** A declaration that differs: its name, null of the public name's own, the module, and its lines; null stands for lines that are left out. */
export interface ChangedPart {
  name: string | null;
  module: string;
  lines: (DiffLine | null)[];
}

/** A public name that differs. */
export interface Change {
  name: string;
  owner: string;
  module: string;
  change: 'removed' | 'changed' | 'added';
  parts: ChangedPart[];
  advice?: Advice;
  reason?: string;
}

/** A folder that was read, its public names, and those of which something is wrong. */
export interface Version {
  world: World;
  names: Map<string, PublicName>;
  isPreview: boolean;
  unknown: Set<string>;
}

/** A place of a declaration in a version. */
export interface Place {
  specifier: string;
  name: string;
}

/** A declaration of both versions. */
export interface ComparedNames {
  key: string;
  old: Place;
  now: Place;
}

/** The advice on a declaration, with the reason where users cannot go on. */
export interface Advised {
  advice: Advice;
  reason: string | null;
}

/** All that is said of two versions. */
export interface Compared {
  changes: Change[];
  advice: Advice | 'unknown' | 'preview';
  reason: string;
  hidden: string[];
  limits: string[];
  versions: string[];
}
