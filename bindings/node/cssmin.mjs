// cssmin for node: style sheets made smaller, with the same winners on every legal page, and plugins for build tools.
// The program is proved. What is here calls it.

export { compare, minify, minifySync } from './calls.mjs'
export { CssminError } from './faults.mjs'
export { licences } from './licences.mjs'
export { esbuild, postcss, postcss as default, vite } from './plugins.mjs'
export { program } from './program.mjs'
