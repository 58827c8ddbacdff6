// Plugins for esbuild, for Vite and Rollup, and for PostCSS. Each takes the options of `minify`.
//
// If a sheet is refused, the build ends with an error that names it, and nothing is written. Line and column are those of
// the text that the tool hands over, which may be another one than that of the source.

import { mkdir, writeFile } from 'node:fs/promises'
import { dirname, resolve } from 'node:path'
import { minify, minifySync } from './calls.mjs'

const STANDARD_OUTPUT = '<stdout>'

// whether a build that names no target begins with a sheet
const beginsWithSheet = ({ entryPoints = [], stdin }) =>
  stdin?.loader === 'css' || Object.values(entryPoints).some(entry => (entry.in ?? entry).endsWith('.css'))

// esbuild does not look for this itself, if it does not write
function refuseToOverwrite(inputs, outputs, folder = '.') {
  const places = new Set(inputs.map(name => resolve(folder, name)))
  const both = outputs.find(({ path }) => places.has(path))
  if (both) throw new Error(`cssmin: ${both.path} is an input, and would be overwritten`)
}

async function put({ path, contents }) {
  if (path === STANDARD_OUTPUT) return void process.stdout.write(contents)
  await mkdir(dirname(path), { recursive: true })
  await writeFile(path, contents)
}

/** For esbuild: the style sheets that a build puts out. */
export const esbuild = (options = {}) => ({
  name: 'cssmin',
  setup({ initialOptions, onEnd }) {
    const { absWorkingDir, allowOverwrite, write: isWritten = true } = initialOptions
    const isGuarded = isWritten && !allowOverwrite
    initialOptions.write = false
    if (isGuarded) initialOptions.metafile = true
    onEnd(async ({ outputFiles = [], metafile }) => {
      if (isGuarded && metafile) refuseToOverwrite(Object.keys(metafile.inputs), outputFiles, absWorkingDir)
      const isSheet = ({ path }) => path.endsWith('.css') || (path === STANDARD_OUTPUT && beginsWithSheet(initialOptions))
      for (const file of outputFiles.filter(isSheet)) {
        const { css } = await minify(file.contents, { ...options, name: file.path })
        file.contents = Buffer.from(css)
      }
      if (isWritten) await Promise.all(outputFiles.map(put))
    })
  },
})

/** For Vite, with `build: { cssMinify: false }`, and for Rollup: the style sheets among the assets. */
export const vite = (options = {}) => ({
  name: 'cssmin',
  apply: 'build',
  enforce: 'post',
  async generateBundle(_, bundle) {
    const sheets = Object.values(bundle).filter(({ type, fileName }) => type === 'asset' && fileName.endsWith('.css'))
    for (const file of sheets) file.source = (await minify(file.source, { ...options, name: file.fileName })).css
  },
})

/** For PostCSS, as the last plugin. */
export const postcss = (options = {}) => ({
  postcssPlugin: 'cssmin',
  OnceExit(root, { result, parse }) {
    const from = root.source?.input.file
    result.root = parse(minifySync(root.toString(), { ...options, name: from }).css, { from })
  },
})
postcss.postcss = true
