// The program and the addon: where they are, and what a call of them gives.
//
// Each call ends with { status, text, report, said }, the last two from standard error. If the sheet is refused, `said` is
// `refused: KIND at N` by both. The status of a program that could not end by itself is the name of its signal.

import { spawn, spawnSync } from 'node:child_process'
import { existsSync } from 'node:fs'
import { createRequire } from 'node:module'
import { fileURLToPath } from 'node:url'

const here = name => fileURLToPath(new URL(`bin/${process.platform}-${process.arch}/${name}`, import.meta.url))

/** The program: the one that CSSMIN names, the one of this package, or the one on the PATH. */
export const program = process.env.CSSMIN || [here('cssmin')].find(existsSync) || 'cssmin'

/** The addon of this package. CSSMIN, or CSSMIN_PROCESS=1, asks for processes instead. */
export const addon = (() => {
  if (process.env.CSSMIN || process.env.CSSMIN_PROCESS) return null
  try {
    return createRequire(import.meta.url)(process.env.CSSMIN_ADDON || here('cssmin.node'))
  } catch (error) {
    if (process.env.CSSMIN_ADDON) throw error
    return null
  }
})()

const REFUSED = 3
const NO_MEMORY = 6
const NO_LIMIT = 0xffffffff
const KINDS = [
  '', 'TooLong', 'NotUtf8', 'BadString', 'BadUrl', 'EndInside', 'TooDeep', 'Namespace', 'TooManyItems', 'TooManyPairs',
]

/** Why the program did not start, in words. */
export function whyNotStarted(error) {
  if (error.code === 'ENOENT') return `the program ${program} is not there: put it on the PATH, or name it in CSSMIN`
  return `the program ${program} does not start: ${error.code ?? error.message}`
}

const budgetWords = budget => (budget === undefined ? [] : ['--budget', String(budget)])

const wordsOf = ({ budget, report }) => ['min', ...budgetWords(budget), ...(report ? ['--report'] : [])]

const ended = (status, signal, out, err, report) => {
  const said = err.toString()
  return { status: status ?? signal, text: out.toString(), report: report ? said : undefined, said: said.trim() }
}

/** Minifies bytes by a process, while this one waits. */
function runSync(words, bytes, report) {
  const run = spawnSync(program, words, { input: bytes, maxBuffer: Infinity })
  // a sheet that is too long is not read to its end, which is an error here too
  if (run.error && run.status === null && run.signal === null) throw new Error(whyNotStarted(run.error))
  return ended(run.status, run.signal, run.stdout, run.stderr, report)
}

/** Minifies bytes by a process, while this one goes on. */
function run(words, bytes, report) {
  return new Promise((resolve, reject) => {
    const run = spawn(program, words)
    const out = []
    const err = []
    run.stdout.on('data', piece => out.push(piece))
    run.stderr.on('data', piece => err.push(piece))
    run.stdin.on('error', () => {}) // as above
    run.on('error', error => reject(new Error(whyNotStarted(error))))
    run.on('close', (status, signal) => resolve(ended(status, signal, Buffer.concat(out), Buffer.concat(err), report)))
    run.stdin.end(bytes)
  })
}

const done = text => ({ status: 0, text, said: '' })

// what the program says for an error of the addon
function failed(error) {
  if (error.status === REFUSED) return { status: REFUSED, text: '', said: `refused: ${KINDS[error.kind]} at ${error.offset}` }
  if (error.status === NO_MEMORY) return { status: NO_MEMORY, text: '', said: error.message }
  throw error
}

/** `cssmin min`, by the addon if it is there and no report is asked for. */
export function minSync(bytes, options) {
  if (!addon || options.report) return runSync(wordsOf(options), bytes, options.report)
  try {
    return done(addon.minify(bytes, options.budget ?? NO_LIMIT))
  } catch (error) {
    return failed(error)
  }
}

/** The same, beside other work. */
export function min(bytes, options) {
  if (!addon || options.report) return run(wordsOf(options), bytes, options.report)
  return addon.minifyAsync(bytes, options.budget ?? NO_LIMIT).then(done, failed)
}

/** `cssmin cmp`, of two selectors. */
export function cmp(left, right, budget) {
  // no selector of the command begins with `-`; white space before it is not part of it
  if (!addon) return runSync(['cmp', ...[left, right].map(selector => selector.replace(/^-/, ' -')), ...budgetWords(budget)], '')
  try {
    return done(addon.compare(Buffer.from(left), Buffer.from(right), budget ?? NO_LIMIT))
  } catch (error) {
    return failed(error)
  }
}
