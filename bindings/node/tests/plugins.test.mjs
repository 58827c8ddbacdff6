// The plugins in their tools, which node has to find (NODE_PATH too), and the hooks of Vite and PostCSS without them.

import assert from 'node:assert/strict'
import { existsSync, mkdtempSync, readFileSync, readdirSync, rmSync, writeFileSync } from 'node:fs'
import { createRequire } from 'node:module'
import { tmpdir } from 'node:os'
import { join } from 'node:path'
import { after, test } from 'node:test'
import { esbuild, minifySync, postcss, vite } from '../cssmin.mjs'

const SHEET = '/*! mine */\na { color: red; }\n'
const SMALLER = '/*! mine */\na{color:red}'
// a sheet that the tools read, and cssmin refuses
const REFUSED = '@namespace svg url(http://www.w3.org/2000/svg);'

const require = createRequire(import.meta.url)
const tool = name => {
  try {
    return require(name)
  } catch {
    return null
  }
}
const tools = Object.fromEntries(['esbuild', 'rollup', 'postcss', 'vite'].map(name => [name, tool(name)]))
const needs = name => ({ skip: !tools[name] && `${name} is not there` })

const folders = []
after(() => folders.forEach(folder => rmSync(folder, { recursive: true, force: true })))

function folderOf(files) {
  const folder = mkdtempSync(join(tmpdir(), 'cssmin-'))
  folders.push(folder)
  for (const [name, text] of Object.entries(files)) writeFileSync(join(folder, name), text)
  return folder
}

const isNamespace = name => error => {
  assert.match(error.message, new RegExp(`${name}:1:1: Namespace: `))
  return true
}

// what esbuild is given by a plugin, without esbuild
async function endBuild(initialOptions, outputFiles) {
  let end
  esbuild().setup({ initialOptions, onEnd: callback => (end = callback) })
  await end({ outputFiles })
}
const fileOf = (path, text) => ({ path, contents: Buffer.from(text) })

test('esbuild: sheets are minified, and all files are written', async () => {
  const folder = folderOf({})
  const files = [fileOf(join(folder, 'out/a.css'), SHEET), fileOf(join(folder, 'out/a.js'), ' 1 ')]
  await endBuild({}, files)
  assert.equal(readFileSync(files[0].path, 'utf8'), SMALLER)
  assert.equal(readFileSync(files[1].path, 'utf8'), ' 1 ')
})

test('esbuild: nothing is written if a sheet is refused, or if the build writes nothing', async () => {
  const folder = folderOf({})
  const files = [fileOf(join(folder, 'a.css'), SHEET), fileOf(join(folder, 'b.css'), REFUSED)]
  await assert.rejects(endBuild({}, files), isNamespace('b.css'))
  await endBuild({ write: false }, files.slice(0, 1))
  assert.equal(files[0].contents.toString(), SMALLER)
  await endBuild({}, undefined)
  assert.deepEqual(readdirSync(folder), [])
})

test('esbuild: a sheet for standard output is minified', async () => {
  for (const options of [{ entryPoints: ['a.css'] }, { entryPoints: { out: 'a.css' } }, { entryPoints: [{ in: 'a.css', out: 'b' }] }, { stdin: { loader: 'css' } }]) {
    const file = fileOf('<stdout>', SHEET)
    await endBuild({ ...options, write: false }, [file])
    assert.equal(file.contents.toString(), SMALLER)
  }
  const script = fileOf('<stdout>', SHEET)
  await endBuild({ entryPoints: ['a.js'], write: false }, [script])
  assert.equal(script.contents.toString(), SHEET)
})

test('esbuild: a build', needs('esbuild'), async () => {
  const folder = folderOf({ 'site.css': SHEET, 'broken.css': REFUSED })
  const build = (name, more) =>
    tools.esbuild.build({ entryPoints: [join(folder, name)], plugins: [esbuild()], logLevel: 'silent', ...more })
  await build('site.css', { outfile: join(folder, 'build/site.css') })
  // esbuild puts the comment at the end, and we before it all
  assert.equal(readFileSync(join(folder, 'build/site.css'), 'utf8'), SMALLER)
  await build('site.css', { outdir: join(folder, 'build/more'), entryNames: '[name]-[hash]' })
  assert.equal(readdirSync(join(folder, 'build/more')).length, 1)
  const { outputFiles } = await build('site.css', { write: false })
  assert.equal(outputFiles[0].text, SMALLER)
  await assert.rejects(build('broken.css', { outfile: join(folder, 'build/broken.css') }), isNamespace('build/broken.css'))
  assert.ok(!existsSync(join(folder, 'build/broken.css')))
  await assert.rejects(build('site.css', { outfile: join(folder, 'site.css') }), /site\.css is an input, and would be overwritten/)
  assert.equal(readFileSync(join(folder, 'site.css'), 'utf8'), SHEET)
})

test('Vite and Rollup: sheets among the assets are minified', async () => {
  const asset = (fileName, source) => ({ type: 'asset', fileName, source })
  const bundle = { a: asset('a.css', SHEET), b: asset('b.css', Buffer.from(SHEET)), c: asset('c.txt', SHEET), d: { type: 'chunk', fileName: 'd.css', code: SHEET } }
  await vite().generateBundle({}, bundle)
  assert.deepEqual([bundle.a.source, bundle.b.source, bundle.c.source, bundle.d.code], [SMALLER, SMALLER, SHEET, SHEET])
  await vite({ licences: false }).generateBundle({}, bundle)
  assert.equal(bundle.a.source, 'a{color:red}')
  await assert.rejects(vite().generateBundle({}, { a: asset('x/a.css', REFUSED) }), isNamespace('x/a.css'))
})

test('Rollup: a build', needs('rollup'), async () => {
  const run = async source => {
    const emits = {
      name: 'emits',
      resolveId: id => id,
      load: () => '',
      buildStart() {
        this.emitFile({ type: 'asset', fileName: 'site.css', source })
      },
    }
    const bundle = await tools.rollup.rollup({ input: 'empty', plugins: [emits, vite()], onwarn() {} })
    const { output } = await bundle.generate({ format: 'es' })
    return output.find(file => file.fileName === 'site.css').source
  }
  assert.equal(await run(SHEET), SMALLER)
  await assert.rejects(run(REFUSED), isNamespace('site.css'))
})

test('Vite: a build', needs('vite'), async () => {
  const { build } = await import(require.resolve('vite'))
  const run = text => {
    const root = folderOf({ 'index.html': '<link rel="stylesheet" href="./site.css"><p>', 'site.css': text })
    return build({ root, logLevel: 'silent', build: { cssMinify: false }, plugins: [vite()] }).then(({ output }) =>
      output.find(({ fileName }) => fileName.endsWith('.css')).source)
  }
  assert.equal(await run(SHEET), SMALLER)
  await assert.rejects(run(REFUSED), /\.css:1:1: Namespace: /)
})

// what PostCSS gives a plugin, without PostCSS
function exit(text, options) {
  const result = {}
  const root = { source: { input: { file: 'site.css' } }, toString: () => text }
  postcss(options).OnceExit(root, { result, parse: (css, { from }) => ({ css, from }) })
  return result.root
}

test('PostCSS: the sheet is minified at the end', () => {
  assert.deepEqual(exit(SHEET), { css: SMALLER, from: 'site.css' })
  assert.equal(exit(SHEET, { licences: false }).css, 'a{color:red}')
  assert.throws(() => exit(REFUSED), isNamespace('site.css'))
  assert.equal(postcss.postcss, true)
})

test('PostCSS: a build', needs('postcss'), async () => {
  const processor = tools.postcss([postcss()])
  assert.equal((await processor.process(SHEET, { from: 'site.css' })).css, SMALLER)
  assert.equal(processor.process(SHEET, { from: undefined }).css, SMALLER)
  await assert.rejects(processor.process(REFUSED, { from: 'site.css' }), isNamespace('site.css'))
  assert.equal((await processor.process('', { from: undefined })).css, minifySync('').css)
})
