import { World } from '../program/types';
import { Printed, Way } from '../skeleton/types';
import { Side } from './index.js';
import { Surface } from './surface.js';

/** An error of the compiler in a file. */
export interface FoundError {
  code: number;
  start: number;
  end: number;
  text: string;
}

/** A declaration that differs: the texts that one has and the other has not. */
export interface SurfaceDifference {
  key: string;
  missing: string[];
  added: string[];
  isLost: boolean;
  isNew: boolean;
}

/** A skeleton with the path of its source. */
export type NamedModule = Printed & { path: string };

/** Sources and skeletons beside each other. */
export interface VerifyView {
  world: World;
  cwd: string;
  modules: NamedModule[];
  sources: Side;
  skeletons: Side;
  found: Map<string, Way>;
}

export type ProgramOf = (texts: Map<string, string>) => ts.Program;

/** Declaration files by their paths, and what the compiler declares for the skeletons. */
export interface ToJudge {
  made: Map<string, string>;
  declared: Map<string, string>;
  skeletons: Map<string, string>;
  skeletonProgram: ts.Program;
  entries: string[];
  programOf: ProgramOf;
}

export interface DeclarationsView {
  declared: Map<string, string>;
  source: Surface;
  skeletons: Map<string, string>;
  entries: string[];
  programOf: ProgramOf;
  skeletonProgram: ts.Program;
}
