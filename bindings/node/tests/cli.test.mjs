// The command line of the package, as a process: what it writes, says and ends with, and what it leaves as it was.

import assert from 'node:assert/strict'
import { spawn, spawnSync } from 'node:child_process'
import {
  chmodSync, existsSync, linkSync, mkdirSync, mkdtempSync, readFileSync, readdirSync, rmSync, statSync, symlinkSync, writeFileSync,
} from 'node:fs'
import { tmpdir } from 'node:os'
import { join } from 'node:path'
import { after, test } from 'node:test'
import { setTimeout as wait } from 'node:timers/promises'
import { fileURLToPath } from 'node:url'

const cli = fileURLToPath(new URL('../cli.mjs', import.meta.url))
const SHEET = '/*! mine */ a { color : red ; }\n'
const SMALLER = '/*! mine */\na{color:red}'
const BROKEN = 'p{top:0}\na{color:"red\n}\n'

const folders = []
after(() => folders.forEach(folder => rmSync(folder, { recursive: true, force: true })))

// a new folder with these files
function folderOf(files = {}) {
  const folder = mkdtempSync(join(tmpdir(), 'cssmin-'))
  folders.push(folder)
  for (const [name, text] of Object.entries(files)) writeFileSync(join(folder, name), text)
  return folder
}

// a run there; `shell` is a line of sh, in which $0 is the command line
function run(folder, words, { input = '', shell, env } = {}) {
  const options = { cwd: folder, input, encoding: 'utf8', env: { ...process.env, ...env }, timeout: 60_000 }
  if (shell === undefined) return spawnSync(process.execPath, [cli, ...words], options)
  return spawnSync('sh', ['-c', shell, cli], options)
}

// a run that is to end so; `said` is the whole of standard error, or what it has to match
function check(ran, status, said = '', text = '') {
  assert.equal(ran.status, status, ran.stderr)
  if (said instanceof RegExp) assert.match(ran.stderr, said)
  else assert.equal(ran.stderr, said)
  assert.equal(ran.stdout, text)
}

const read = (folder, name) => readFileSync(join(folder, name), 'utf8')

test('a sheet is written beside itself', () => {
  const folder = folderOf({ 'site.css': SHEET, page: SHEET })
  check(run(folder, ['site.css']), 0)
  assert.equal(read(folder, 'site.min.css'), SMALLER)
  check(run(folder, ['./page']), 0)
  assert.equal(read(folder, 'page.min.css'), SMALLER)
  assert.equal(read(folder, 'site.css'), SHEET)
  assert.deepEqual(readdirSync(folder).sort(), ['page', 'page.min.css', 'site.css', 'site.min.css'])
})

test('targets are named by -o and -d, and their folders are made', () => {
  const folder = folderOf({ 'a.css': SHEET, 'b.css': 'b { top : 0 }' })
  check(run(folder, ['a.css', '-o', 'out/deep/site.min.css']), 0)
  assert.equal(read(folder, 'out/deep/site.min.css'), SMALLER)
  check(run(folder, ['-d', 'build', 'a.css', join(folder, 'b.css')]), 0)
  assert.equal(read(folder, 'build/a.css'), SMALLER)
  assert.equal(read(folder, 'build/b.css'), 'b{top:0}')
  check(run(folder, ['a.css', '-o', '-']), 0, '', SMALLER)
  check(run(folder, ['a.css', '--no-licences', '-o', '-']), 0, '', 'a{color:red}')
})

test('without a sheet it is a filter', () => {
  const folder = folderOf()
  check(run(folder, [], { input: SHEET }), 0, '', SMALLER)
  check(run(folder, ['-'], { input: SHEET }), 0, '', SMALLER)
  check(run(folder, ['-o', 'a.css'], { input: SHEET }), 0)
  assert.equal(read(folder, 'a.css'), SMALLER)
  check(run(folder, [], { input: BROKEN }), 1, /^standard input:2:9: BadString: /)
})

test('a refused sheet is named with its place, and others go on', () => {
  const folder = folderOf({ 'a.css': BROKEN, 'b.css': SHEET, 'a.min.css': 'old' })
  const told = 'a.css:2:9: BadString: the string that begins here has a newline without a backslash before it\n2 | a{color:"red\n            ^\n'
  check(run(folder, ['a.css', 'b.css']), 1, told)
  assert.equal(read(folder, 'a.min.css'), 'old')
  assert.equal(read(folder, 'b.min.css'), SMALLER)
})

test('a sheet that cannot be read is named', () => {
  const folder = folderOf()
  mkdirSync(join(folder, 'folder'))
  check(run(folder, ['none.css', 'folder']), 1, /^cssmin: none\.css: not there$/m)
  check(run(folder, ['folder']), 1, 'cssmin: folder: a folder\n')
  check(run(folder, ['none.css/x']), 1, 'cssmin: none.css/x: not there\n')
  check(run(folder, ['/dev/zero', '-o', 'x']), 1, /^\/dev\/zero:1:1048577: TooLong: /)
  check(run(folder, [], { shell: '"$0" <folder' }), 1, 'cssmin: standard input: a folder\n')
  assert.deepEqual(readdirSync(folder), ['folder'])
})

test('a target that cannot be written is named, and stays', () => {
  const folder = folderOf({ 'a.css': SHEET, file: 'old' })
  mkdirSync(join(folder, 'folder'))
  check(run(folder, ['a.css', '-o', 'folder']), 1, 'cssmin: folder: a folder\n')
  check(run(folder, ['a.css', '-o', 'none/']), 1, 'cssmin: none/: a folder\n')
  check(run(folder, ['a.css', '-o', 'file/x']), 1, 'cssmin: file/x: a part of its path is no folder\n')
  check(run(folder, ['a.css', '-d', 'file']), 1, 'cssmin: file/a.css: a part of its path is no folder\n')
  check(run(folder, ['a.css', '-o', '/proc/none/x']), 1, 'cssmin: /proc/none/x: not there\n')
  check(run(folder, ['a.css', '-o', 'x'.repeat(300)]), 1, /^cssmin: x+: the name is too long$/m)
  symlinkSync('round', join(folder, 'round'))
  check(run(folder, ['a.css', '-o', 'round']), 1, 'cssmin: round: links without an end\n')
  assert.equal(read(folder, 'file'), 'old')
  assert.deepEqual(readdirSync(folder).sort(), ['a.css', 'file', 'folder', 'round'])
})

test('a full disk leaves the target as it was', () => {
  const folder = folderOf({ 'a.css': SHEET.repeat(200).replace(/red/g, () => `c${Math.random()}`), 'a.min.css': 'old' })
  check(run(folder, [], { shell: `trap '' XFSZ; ulimit -f 1; "$0" a.css` }), 1, /^cssmin: a\.min\.css: /)
  assert.equal(read(folder, 'a.min.css'), 'old')
  assert.deepEqual(readdirSync(folder).sort(), ['a.css', 'a.min.css'])
  check(run(folder, [], { shell: '"$0" a.css -o /dev/full' }), 1, 'cssmin: /dev/full: the disk is full\n')
  check(run(folder, [], { shell: '"$0" a.css -o - >/dev/full' }), 1, 'cssmin: standard output: the disk is full\n')
})

test('what is no regular file is written to, and never replaced', () => {
  const folder = folderOf({ 'a.css': SHEET, log: 'first\n' })
  const before = statSync('/dev/null')
  check(run(folder, ['a.css', '-o', '/dev/null']), 0)
  assert.ok(statSync('/dev/null').isCharacterDevice() && statSync('/dev/null').ino === before.ino)
  symlinkSync('/dev/null', join(folder, 'null'))
  check(run(folder, ['a.css', '-o', 'null']), 0)
  assert.ok(statSync(join(folder, 'null')).isCharacterDevice())
  check(run(folder, ['a.css', '-o', '/dev/stdout']), 0, '', SMALLER)
  check(run(folder, [], { shell: '"$0" a.css -o /dev/stdout >>log; "$0" a.css -o /dev/fd/3 3>>log' }), 0)
  assert.equal(read(folder, 'log'), `first\n${SMALLER}${SMALLER}`)
  check(run(folder, [], { shell: 'mkfifo pipe; cat pipe & "$0" a.css -o pipe; wait' }), 0, '', SMALLER)
  assert.ok(statSync(join(folder, 'pipe')).isFIFO())
})

test('a target keeps its mode and its link', () => {
  const folder = folderOf({ 'a.css': SHEET, real: 'old' })
  chmodSync(join(folder, 'real'), 0o664)
  mkdirSync(join(folder, 'links'))
  symlinkSync('../real', join(folder, 'links/link'))
  symlinkSync('links', join(folder, 'way'))
  check(run(folder, ['a.css', '-o', 'way/link']), 0)
  assert.equal(read(folder, 'real'), SMALLER)
  assert.equal(statSync(join(folder, 'real')).mode & 0o777, 0o664)
  symlinkSync('new', join(folder, 'to-new'))
  check(run(folder, ['a.css', '-o', 'to-new']), 0)
  assert.equal(read(folder, 'new'), SMALLER)
})

test('a target that may not be written to is not replaced', { skip: process.getuid() === 0 && 'root may write to all' }, () => {
  const folder = folderOf({ 'a.css': SHEET, 'a.min.css': 'old' })
  chmodSync(join(folder, 'a.min.css'), 0o444)
  check(run(folder, ['a.css']), 1, 'cssmin: a.min.css: not allowed\n')
  assert.equal(read(folder, 'a.min.css'), 'old')
})

test('a sheet is never a target', () => {
  const folder = folderOf({ 'a.css': SHEET, 'a.min.css': 'b { top : 0 }' })
  linkSync(join(folder, 'a.css'), join(folder, 'hard'))
  symlinkSync('a.css', join(folder, 'soft'))
  for (const words of [
    ['a.css', '-o', 'a.css'],
    ['a.css', '-o', './a.css'],
    ['a.css', '-o', 'hard'],
    ['soft', '-o', 'a.css'],
    ['a.css', '-o', 'soft'],
    ['-d', '.', 'a.css'],
    ['a.css', 'a.min.css'],
  ])
    check(run(folder, words), 2, /^cssmin: \S+ is a sheet, and would be overwritten/)
  check(run(folder, [], { shell: '"$0" -o a.css <a.css' }), 2, /^cssmin: a\.css is a sheet/)
  assert.equal(read(folder, 'a.css'), SHEET)
  assert.equal(read(folder, 'a.min.css'), 'b { top : 0 }')
})

test('wrong words are told, and nothing is written', () => {
  const folder = folderOf({ 'a.css': SHEET, 'b.css': SHEET })
  mkdirSync(join(folder, 'other'))
  writeFileSync(join(folder, 'other/a.css'), SHEET)
  for (const words of [
    ['--nothing', 'a.css'],
    ['a.css', '-o'],
    ['a.css', '-o', ''],
    [''],
    ['a.css', '-o', 'x', '-d', 'y'],
    ['a.css', 'b.css', '-o', 'x'],
    ['a.css', 'a.css'],
    ['-', '-'],
    ['-d', 'out', 'a.css', 'other/a.css'],
    ['--budget', '20001', 'a.css'],
    ['--budget', '07', 'a.css'],
    ['--budget=', 'a.css'],
    ['-w'],
  ])
    check(run(folder, words), 2, /^cssmin: .+\nTry 'cssmin --help'\.\n$/)
  assert.deepEqual(readdirSync(folder).sort(), ['a.css', 'b.css', 'other'])
})

test('a name that begins with - follows --', () => {
  const folder = folderOf({ '-a.css': SHEET })
  check(run(folder, ['--', '-a.css']), 0)
  assert.equal(read(folder, '-a.min.css'), SMALLER)
})

test('commands of the program are handed to it', () => {
  const folder = folderOf({ 'a.css': SHEET })
  check(run(folder, ['cmp', 'a:link', 'a:visited']), 0, '', 'disjoint\n')
  check(run(folder, ['min'], { input: SHEET }), 0, '', 'a{color:red}')
  check(run(folder, ['min'], { input: BROKEN }), 3, 'refused: BadString at 17\n')
  const version = spawnSync(process.env.CSSMIN_PROGRAM, ['--version'], { encoding: 'utf8' }).stdout
  check(run(folder, ['--version']), 0, '', version)
})

test('a report follows', () => {
  const folder = folderOf({ 'a.css': '.a{top:0}.b{top:1px}.a{top:2px}', 'b.css': SHEET })
  check(run(folder, ['a.css', '--report']), 0, /^items 3 3\nbytes 31 31\n/)
  check(run(folder, ['a.css', 'b.css', '--report']), 0, /^a\.css:\nitems 3 3\n/m)
})

// what script(1) shows of a run at a terminal
const atTerminal = (folder, words) =>
  spawnSync('script', ['-qec', `'${process.execPath}' '${cli}' ${words}`, '/dev/null'], { cwd: folder, encoding: 'utf8' }).stdout
const hasScript = spawnSync('script', ['--version']).status === 0

test('a summary is for a terminal alone', { skip: !hasScript && 'no script(1)' }, () => {
  const folder = folderOf({ 'a.css': '.a{top:0}.b{top:1px}.a{top:2px}' })
  assert.match(atTerminal(folder, 'a.css'), /^a\.css: 31 to 31 bytes, 0\.0 % less, \d+ ms\r\n$/)
  assert.equal(atTerminal(folder, '-q a.css'), '')
  assert.match(atTerminal(folder, ''), /^cssmin: name a sheet\r\n/)
})

test('a reader that closes standard output is told', () => {
  const folder = folderOf({ 'a.css': `/*! ${'x'.repeat(300_000)} */` })
  check(run(folder, [], { shell: '{ "$0" a.css -o -; echo "status $?" >&2; } | true' }), 0, 'cssmin: standard output: closed by its reader\nstatus 1\n')
})

test('a program that is not there is named', () => {
  const folder = folderOf({ 'a.css': SHEET })
  const env = { CSSMIN: '/none/cssmin' }
  check(run(folder, ['a.css'], { env }), 1, 'cssmin: a.css: the program /none/cssmin is not there: put it on the PATH, or name it in CSSMIN\n')
  check(run(folder, ['--version'], { env }), 1, /^cssmin: the program \/none\/cssmin is not there/)
  assert.ok(!existsSync(join(folder, 'a.min.css')))
})

test('a folder that cannot be watched is named', () => {
  const folder = folderOf({ 'a.css': SHEET })
  check(run(folder, ['-w', 'none/a.css', 'a.css']), 1, 'cssmin: none/a.css: not there\ncssmin: none cannot be watched: ENOENT\n')
})

test('a watched sheet is written again when it changes', async () => {
  const folder = folderOf({ 'a.css': SHEET })
  const running = spawn(process.execPath, [cli, '-w', 'a.css'], { cwd: folder, stdio: ['ignore', 'ignore', 'pipe'] })
  let said = ''
  running.stderr.on('data', piece => (said += piece))
  const until = async what => {
    for (let tries = 0; tries < 400 && !what(); tries += 1) await wait(25)
    assert.ok(what(), `${what}: ${said}`)
  }
  const has = text => () => existsSync(join(folder, 'a.min.css')) && read(folder, 'a.min.css') === text
  try {
    await until(has(SMALLER))
    await wait(100)
    writeFileSync(join(folder, 'a.css'), BROKEN)
    await until(() => /a\.css:2:9: BadString/.test(said))
    assert.ok(has(SMALLER)())
    writeFileSync(join(folder, 'new'), 'b { top : 0 }')
    spawnSync('mv', ['new', 'a.css'], { cwd: folder })
    await until(has('b{top:0}'))
  } finally {
    running.kill()
  }
  const [, signal] = await new Promise(resolve => running.on('close', (...ended) => resolve(ended)))
  assert.equal(signal, 'SIGTERM')
})
