'use strict';
// Where the text of an import leads, as the compiler finds it.
const typescript = require('./typescript.js');

/** The options under which a text may have any ending that a source has. */
function asked(/** @type {ts.CompilerOptions} */ options) {
  const { ts } = typescript;
  const { Bundler } = /** @type {{ Bundler?: ts.ModuleResolutionKind }} */ (ts.ModuleResolutionKind);
  return { ...options, moduleResolution: Bundler || ts.ModuleResolutionKind.NodeJs, module: ts.ModuleKind.ESNext, resolveJsonModule: true };
}

/**
 * The module that a text of a file leads to; undefined of none. Compilers before 5.0 read no text that ends as `.ts`: they are asked for the one that ends as
 * `.js`, which later ones take for the same.
 *
 * @param {string} text
 * @param {string} from
 * @param {ts.CompilerOptions} options
 * @param {ts.ModuleResolutionHost} host
 * @returns {ts.ResolvedModuleFull | undefined}
 */
function resolvedModule(text, from, options, host) {
  const { ts } = typescript;
  const find = (/** @type {string} */ each) => ts.resolveModuleName(each, from, options, host).resolvedModule;
  return find(text) || (typescript.isFrom(5, 0) ? undefined : find(text.replace(/\.([cm]?)ts(x?)$/, '.$1js$2')));
}

module.exports = { asked, resolvedModule };
