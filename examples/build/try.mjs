// Tries the recipes of this folder on a sheet that is read and on one that is refused. The plugins have tests of their own
// (bindings/node/tests).
//
// usage: node try.mjs PROGRAM

import assert from 'node:assert/strict'
import { spawnSync } from 'node:child_process'
import { cpSync, existsSync, mkdirSync, mkdtempSync, readFileSync, rmSync, symlinkSync, writeFileSync } from 'node:fs'
import { tmpdir } from 'node:os'
import { delimiter, dirname, join, resolve } from 'node:path'
import { fileURLToPath } from 'node:url'

if (process.argv.length !== 3) {
  console.error('usage: node try.mjs PROGRAM')
  process.exit(2)
}
const program = resolve(process.argv[2])
const here = dirname(fileURLToPath(import.meta.url))
const source = readFileSync(join(here, '../handbook.css'))
const smaller = readFileSync(join(here, '../handbook.min.css'), 'utf8')
const broken = 'a { content: "no end\n }'
const folders = []

// a new folder with `src/site.css` of this text, and the program as `cssmin` in `bin`
function site(text) {
  const folder = mkdtempSync(join(tmpdir(), 'cssmin-'))
  folders.push(folder)
  for (const name of ['src', 'build', 'bin']) mkdirSync(join(folder, name))
  writeFileSync(join(folder, 'src/site.css'), text)
  symlinkSync(program, join(folder, 'bin/cssmin'))
  for (const name of ['package.json', 'sheets.mk']) cpSync(join(here, name), join(folder, name))
  return folder
}

// runs a command in such a folder, with its program on the PATH
function command(folder, words) {
  const env = { ...process.env, PATH: join(folder, 'bin') + delimiter + process.env.PATH }
  return spawnSync(words[0], words.slice(1), { cwd: folder, env, encoding: 'utf8' })
}

// the recipe of a command gives build/site.min.css, and leaves none of a broken sheet
function tryCommand(words) {
  const good = site(source)
  assert.equal(command(good, words).status, 0)
  assert.equal(readFileSync(join(good, 'build/site.min.css'), 'utf8'), smaller)
  const bad = site(broken)
  assert.notEqual(command(bad, words).status, 0)
  assert.ok(!existsSync(join(bad, 'build/site.min.css')))
}

const recipes = {
  'npm script': ['npm', 'run', '--silent', 'css'],
  make: ['make', '-f', 'sheets.mk', 'build/site.min.css'],
}

for (const [name, words] of Object.entries(recipes)) {
  try {
    tryCommand(words)
    console.log(`${name}: as it should`)
  } catch (error) {
    process.exitCode = 1
    console.log(`${name}: ${error.stack}`)
  }
}
for (const folder of folders) rmSync(folder, { recursive: true })
