#!/usr/bin/env node
// `cssmin` with file names, over the program: several sheets, errors with their line, licences kept, and a watch.

import { spawn, spawnSync } from 'node:child_process'
import { availableParallelism } from 'node:os'
import { basename, dirname, join, resolve } from 'node:path'
import { parseArgs } from 'node:util'
import { minify } from './calls.mjs'
import { CssminError } from './faults.mjs'
import { STREAM, identityOf, readSheet, reasonOf, removeUnfinished, writeTarget } from './files.mjs'
import { program, whyNotStarted } from './program.mjs'
import { watchSheets } from './watch.mjs'

const HELP = `Makes CSS style sheets smaller, with the same winners on every legal page

Usage: cssmin [OPTIONS] [SHEET]..
       cssmin COMMAND ..        a command of the program; 'cssmin help' lists them

Writes site.css to site.min.css. Without a SHEET, or with -, it reads standard
input and writes standard output.

Options:
  -o, --output FILE   write the one sheet to FILE; - is standard output
  -d, --dir FOLDER    write each sheet into FOLDER, under its own name
      --budget N      give up on two selectors after N learned clauses, 0 to 20000
      --report        list on standard error what blocks further steps
      --no-licences   drop all comments; else those with /*!, @license or
                      @preserve come first in the target
  -q, --quiet         no line for each sheet; there is none if standard error
                      is no terminal
  -w, --watch         stay, and write a sheet again when it changes
  -h, --help          print this
  -V, --version       print the version

Exit status: 0 done; 1 a sheet was refused, or not read or written; 2 wrong words
`
const OPTIONS = {
  output: { type: 'string', short: 'o' },
  dir: { type: 'string', short: 'd' },
  budget: { type: 'string' },
  report: { type: 'boolean' },
  'no-licences': { type: 'boolean' },
  quiet: { type: 'boolean', short: 'q' },
  watch: { type: 'boolean', short: 'w' },
  help: { type: 'boolean', short: 'h' },
  version: { type: 'boolean', short: 'V' },
}

class UsageError extends Error {}

const say = text => process.stderr.write(text)

/** Hands words to the program, and ends as it does. */
function pass(words) {
  const run = spawn(program, words, { stdio: 'inherit' })
  run.on('error', error => say(`cssmin: ${whyNotStarted(error)}\n`))
  run.on('close', (status, signal) => {
    if (signal) process.kill(process.pid, signal)
    process.exitCode = status >= 0 ? status : 1 // it did not start
  })
}

/** Whether a word is one of the program's commands, by its help. */
function isCommand(word) {
  if (!/^[a-z]+$/.test(word)) return false
  const { stdout } = spawnSync(program, ['--help'], { encoding: 'utf8' })
  return new RegExp(`^  ${word}  `, 'm').test(stdout ?? '')
}

function wordsOf(words) {
  try {
    return parseArgs({ args: words, allowPositionals: true, options: OPTIONS })
  } catch (error) {
    throw new UsageError(error.message.split('. ')[0])
  }
}

const nameOf = sheet => (sheet === STREAM ? 'standard input' : sheet)

function targetOf(sheet, { output, dir }) {
  if (output !== undefined) return output
  if (sheet === STREAM) return STREAM
  if (dir !== undefined) return join(dir, basename(sheet))
  return join(dirname(sheet), `${basename(sheet).replace(/\.css$/, '')}.min.css`)
}

function checkWords({ output, dir, budget, watch }, sheets) {
  if (output !== undefined && dir !== undefined) throw new UsageError('--output and --dir do not go together')
  if (output !== undefined && sheets.length > 1) throw new UsageError('--output is for one sheet; use --dir')
  if ([output, dir, ...sheets].includes('')) throw new UsageError('the name of a file is empty')
  if (budget !== undefined && !(/^(?:0|[1-9]\d{0,4})$/.test(budget) && Number(budget) <= 20000))
    throw new UsageError(`--budget takes 0 to 20000, and not '${budget}'`)
  if (watch && sheets.includes(STREAM)) throw new UsageError('--watch needs the names of sheets')
}

/** No sheet is a target, and no two sheets have one target. */
async function checkTargets(jobs) {
  const places = await Promise.all(jobs.map(({ sheet }) => identityOf(sheet)))
  const seen = new Set()
  for (const { target } of jobs) {
    const name = target === STREAM ? 'standard output' : resolve(target)
    const place = target === STREAM ? null : await identityOf(target)
    if (place !== null && places.includes(place))
      throw new UsageError(`${target} is a sheet, and would be overwritten: leave it out, or use --dir`)
    if (seen.has(name) || seen.has(place)) throw new UsageError(`two sheets would be written to ${target}`)
    seen.add(name)
    if (place !== null) seen.add(place)
  }
}

function summaryOf(sheet, before, css, began) {
  const after = Buffer.byteLength(css)
  const less = before ? (100 * (1 - after / before)).toFixed(1) : 0
  const sizes = [before, after].map(size => size.toLocaleString('en'))
  return `${sheet}: ${sizes[0]} to ${sizes[1]} bytes, ${less} % less, ${Math.round(performance.now() - began)} ms\n`
}

/** Minifies one sheet. Says what went wrong. Gives whether nothing did. */
async function perform({ sheet, target, isOnly }, { budget, report, quiet, 'no-licences': isBare }) {
  const began = performance.now()
  let at = nameOf(sheet)
  try {
    const bytes = await readSheet(sheet)
    const options = { name: at, budget: budget && Number(budget), report, licences: !isBare }
    const made = await minify(bytes, options)
    at = target === STREAM ? 'standard output' : target
    await writeTarget(target, made.css)
    if (report) say(isOnly ? made.report : `${nameOf(sheet)}:\n${made.report}`)
    if (!quiet && process.stderr.isTTY) say(summaryOf(nameOf(sheet), bytes.length, made.css, began))
    return true
  } catch (error) {
    say(error instanceof CssminError ? `${error.message}\n` : `cssmin: ${at}: ${reasonOf(error)}\n`)
    return false
  }
}

/** Minifies all, as many at once as there are processors. Gives how many went wrong. */
async function performAll(jobs, values) {
  const left = jobs.values()
  let failed = 0
  const lane = async () => {
    for (const job of left) if (!(await perform(job, values))) failed += 1
  }
  await Promise.all(Array.from({ length: Math.min(availableParallelism(), jobs.length) }, lane))
  return failed
}

async function main(words) {
  if (words.length > 0 && isCommand(words[0])) return pass(words)
  const { values, positionals } = wordsOf(words)
  if (values.help) return void process.stdout.write(HELP)
  if (values.version) return pass(['--version'])
  if (positionals.length === 0 && process.stdin.isTTY) throw new UsageError('name a sheet')
  const sheets = positionals.length > 0 ? positionals : [STREAM]
  checkWords(values, sheets)
  const jobs = sheets.map(sheet => ({ sheet, target: targetOf(sheet, values), isOnly: sheets.length === 1 }))
  await checkTargets(jobs)
  const failed = await performAll(jobs, values)
  process.exitCode = failed > 0 ? 1 : 0
  if (values.watch) await watchAll(jobs, values)
}

async function watchAll(jobs, values) {
  try {
    await watchSheets(jobs, job => perform(job, values))
  } catch (error) {
    say(`cssmin: ${error.path} cannot be watched: ${error.code}\n`)
    process.exit(1)
  }
}

for (const signal of ['SIGHUP', 'SIGINT', 'SIGTERM'])
  process.once(signal, () => {
    removeUnfinished()
    process.kill(process.pid, signal)
  })
for (const stream of [process.stdout, process.stderr]) stream.on('error', () => {})

try {
  await main(process.argv.slice(2))
} catch (error) {
  if (!(error instanceof UsageError)) throw error
  say(`cssmin: ${error.message}\nTry 'cssmin --help'.\n`)
  process.exitCode = 2
}
