// The comments of a sheet that have to stay. `cssmin min` keeps none; they are put before what it writes.

// Comments, strings, urls without quotes and escapes, each passed over whole: a comment inside another one of these is none.
const PIECES = new RegExp(
  [
    String.raw`\/\*[^]*?(?:\*\/|$)`,
    String.raw`"(?:\\[^]|[^"\\])*"?`,
    String.raw`'(?:\\[^]|[^'\\])*'?`,
    String.raw`(?<![\w\\\u0080-\uffff-])url\(\s*(?!["'\s])(?:\\[^]|[^)\\])*\)?`,
    String.raw`\\[^]`,
  ].join('|'),
  'gi',
)

const MAY_HAVE_SOME = /\/\*!|@license\b|@preserve\b/
const HAS_TO_STAY = /^\/\*(?:!|[^]*@(?:license|preserve)\b)/

const isWhole = piece => piece.endsWith('*/') && piece.length >= 4

/** The comments of a sheet that begin with `/*!`, or have `@license` or `@preserve`: each once, in their order. */
export function licences(sheet) {
  if (!MAY_HAVE_SOME.test(sheet)) return []
  const found = sheet.match(PIECES) ?? []
  return [...new Set(found.filter(piece => HAS_TO_STAY.test(piece) && isWhole(piece)))]
}

/** A sheet with these comments before it, each on a line; but after `@charset`, which counts only at the very start. */
export function withLicences(sheet, comments) {
  if (comments.length === 0) return sheet
  const charset = /^@charset "[^"]*";/.exec(sheet)?.[0] ?? ''
  return `${charset}${comments.join('\n')}\n${sheet.slice(charset.length)}`
}
