// The calls: sheets minified, and selectors compared, by the program or the addon.

import { CssminError } from './faults.mjs'
import { licences, withLicences } from './licences.mjs'
import { cmp, min, minSync } from './program.mjs'

const MOST_BUDGET = 20000

function bytesOf(source) {
  if (typeof source === 'string') return Buffer.from(source)
  if (!(source instanceof Uint8Array)) throw new TypeError('cssmin: the sheet has to be a string or a Uint8Array')
  return Buffer.from(source.buffer, source.byteOffset, source.byteLength)
}

function checked(options) {
  const { budget } = options
  if (budget === undefined || (Number.isInteger(budget) && budget >= 0 && budget <= MOST_BUDGET)) return options
  throw new RangeError(`cssmin: the budget has to be a whole number from 0 to ${MOST_BUDGET}`)
}

function made(bytes, { name = 'style sheet', licences: keeps = true }, result) {
  if (result.status !== 0) throw new CssminError(name, bytes, result)
  const css = keeps && bytes.includes('/*') ? withLicences(result.text, licences(bytes.toString())) : result.text
  return { css, report: result.report }
}

/**
 * Minifies a sheet: `{ css, report }`. Options: `name` for errors, `budget` from 0 to 20000, `report` (false) as of
 * `cssmin min --report`, and `licences` (true): whether comments such as `/*!` are put before the text.
 * Throws a CssminError if the sheet is refused.
 */
export function minifySync(source, options = {}) {
  const bytes = bytesOf(source)
  return made(bytes, options, minSync(bytes, checked(options)))
}

/** The same, beside other work. The bytes have to stay until it ends. */
export async function minify(source, options = {}) {
  const bytes = bytesOf(source)
  return made(bytes, options, await min(bytes, checked(options)))
}

/** The text that `cssmin cmp LEFT RIGHT` writes: whether one element of a legal page can match two selectors. */
export function compare(left, right, options = {}) {
  if (typeof left !== 'string' || typeof right !== 'string') throw new TypeError('cssmin: a selector has to be a string')
  const result = cmp(left, right, checked(options).budget)
  if (result.status !== 0) throw new CssminError('selectors', Buffer.alloc(0), result)
  return result.text
}
