// The calls, by processes (CSSMIN) or by the addon (CSSMIN_ADDON), against the program that CSSMIN_PROGRAM names.

import assert from 'node:assert/strict'
import { spawnSync } from 'node:child_process'
import { readdirSync, readFileSync } from 'node:fs'
import { test } from 'node:test'
import { Worker } from 'node:worker_threads'
import { CssminError, compare, minify, minifySync } from '../cssmin.mjs'
import { addon } from '../program.mjs'

const examples = new URL('../../../examples/', import.meta.url)
const read = name => readFileSync(new URL(name, examples))
const sheets = readdirSync(examples).filter(name => name.endsWith('.css') && !name.endsWith('.min.css'))
const bare = { licences: false }
const ask = (words, input) => spawnSync(process.env.CSSMIN_PROGRAM, words, { input, encoding: 'utf8' })

test('examples have the bytes that the program gives', async () => {
  assert.notEqual(sheets.length, 0)
  for (const name of sheets) {
    const wanted = read(name.replace(/\.css$/, '.min.css')).toString()
    assert.equal(minifySync(read(name), bare).css, wanted)
    assert.equal((await minify(read(name).toString(), bare)).css, wanted)
  }
})

test('a sheet may be empty, and text or bytes', () => {
  for (const sheet of ['', Buffer.alloc(0), new Uint8Array(0)]) assert.equal(minifySync(sheet).css, '')
  const bytes = Buffer.from('xxa { top : 0 }xx').subarray(2, -2)
  assert.equal(minifySync(bytes).css, 'a{top:0}')
  const shared = new Uint8Array(new SharedArrayBuffer(bytes.length))
  shared.set(bytes)
  assert.equal(minifySync(shared).css, 'a{top:0}')
  assert.equal(minifySync('é { top : 0 }').css, 'é{top:0}')
})

test('what is no sheet is refused by its type', async () => {
  for (const what of [undefined, null, 1, {}, ['a{}'], new Uint16Array(2), new ArrayBuffer(2)]) {
    assert.throws(() => minifySync(what), TypeError)
    await assert.rejects(minify(what), TypeError)
  }
  assert.throws(() => compare('a', undefined), TypeError)
})

test('a budget is a number from 0 to 20000', async () => {
  for (const budget of [-1, 20001, 1.5, NaN, '7', null]) {
    assert.throws(() => minifySync('a{}', { budget }), RangeError)
    await assert.rejects(minify('a{}', { budget }), RangeError)
  }
  assert.equal(minifySync('a { top : 0 }', { budget: 0 }).css, 'a{top:0}')
})

test('a refused sheet is named, with the place that the program gives', async () => {
  for (const sheet of [
    'a{}\n\u00e9{b:"x\n',
    '\ufeffa{top:0}\r\n\r\u{1f600}{b:url(a b',
    '\ufeff{',
    'p{}\r{',
    '/* \n\r\n\r',
    '@namespace a;',
    '('.repeat(257),
    Buffer.from('a{}\n\u00e9\xff', 'latin1'),
  ]) {
    const [, kind, offset, line, column] = /^refused: (\w+) at (\d+) \((\d+):(\d+)\)\n$/.exec(ask(['list'], sheet).stderr)
    const isRight = error => {
      assert.ok(error instanceof CssminError)
      assert.deepEqual([error.kind, error.offset, error.line, error.column].map(String), [kind, offset, line, column])
      assert.ok(error.message.startsWith(`site.css:${line}:${column}: ${kind}: `), error.message)
      return true
    }
    assert.throws(() => minifySync(sheet, { name: 'site.css' }), isRight)
    await assert.rejects(minify(sheet, { name: 'site.css' }), isRight)
  }
})

test('the mark is below the column, and control characters are spaces', () => {
  const excerptOf = sheet => {
    try {
      minifySync(sheet)
    } catch (error) {
      return error.excerpt
    }
  }
  assert.equal(excerptOf('a{}\n\u{1f600}\t{b:"x\u001b\n'), '2 | \u{1f600} {b:"x \n         ^')
  const long = excerptOf(`${'a'.repeat(1000)}"`)
  assert.ok(long.split('\n').every(line => line.length < 80))
  assert.equal(long.split('\n')[0][long.split('\n')[1].length - 1], '"')
})

test('a sheet that is too long is refused', async () => {
  const sheet = ' '.repeat(3 << 20)
  const isRight = error => error.kind === 'TooLong' && error.offset === 1048576
  assert.throws(() => minifySync(sheet), isRight)
  await assert.rejects(minify(sheet), isRight)
})

test('many calls at once do not mix', async () => {
  const wanted = read('handbook.min.css').toString()
  const calls = Array.from({ length: 16 }, (_, i) => (i % 4 === 3 ? minify('a{"\n').catch(error => error.kind) : minify(read('handbook.css'), bare)))
  for (const [i, made] of (await Promise.all(calls)).entries()) assert.equal(made.css ?? made, i % 4 === 3 ? 'BadString' : wanted)
})

test('a worker can call', async () => {
  const source = `
    const { parentPort, workerData } = require('node:worker_threads')
    import(workerData).then(({ minifySync }) => parentPort.postMessage(minifySync('a { top : 0 }').css))`
  const worker = new Worker(source, { eval: true, workerData: new URL('../cssmin.mjs', import.meta.url).href })
  const told = await new Promise((resolve, reject) => worker.on('message', resolve).on('error', reject))
  assert.equal(told, 'a{top:0}')
})

test('a report is that of the program', async () => {
  const sheet = '.a{top:0}.b{top:1px}.a{top:2px}'
  const wanted = ask(['min', '--report'], sheet).stderr
  assert.match(wanted, /^items 3 3\n/)
  assert.equal(minifySync(sheet, { report: true }).report, wanted)
  assert.equal((await minify(sheet, { report: true })).report, wanted)
  assert.equal(minifySync(sheet).report, undefined)
})

test('two selectors are compared', () => {
  assert.equal(compare('a:link', 'a:visited'), 'disjoint\n')
  assert.equal(compare('a:link', 'a:visited', { budget: 0 }), 'disjoint\n')
  assert.equal(compare('', 'a'), 'outside 10\n')
  assert.equal(compare('-a', 'a'), 'disjoint\n')
  assert.match(compare(`.${'x'.repeat(3000)}`, 'a'), /^overlap\n(.+\n)+$/)
})

test('the addon is called if it is asked for', () => {
  assert.equal(addon !== null, Boolean(process.env.CSSMIN_ADDON))
  if (!addon) return
  for (const words of [[], ['a{}', 1], [Buffer.from('a{}')], [Buffer.from('a{}'), 'x'], [new Uint16Array(2), 1]]) {
    assert.throws(() => addon.minify(...words), TypeError)
    assert.throws(() => addon.minifyAsync(...words), TypeError)
  }
  assert.throws(() => addon.compare(Buffer.from('a'), 'b', 1), TypeError)
})
