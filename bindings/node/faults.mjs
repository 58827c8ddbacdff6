// Why a sheet was not minified, and where.

const LINE_FEED = 10
const CARRIAGE_RETURN = 13
const SHOWN = 72 // characters of a line, at most

// what is wrong, for each kind of fault that the program names
const FAULTS = {
  TooLong: 'the sheet has more than 1,048,576 bytes',
  NotUtf8: 'the sheet is not UTF-8 from here on',
  BadString: 'the string that begins here has a newline without a backslash before it',
  BadUrl: 'the url that begins here has a character that has to be quoted or escaped',
  EndInside: 'the sheet ends inside what begins here: a comment, a string, a url, an escape or an open bracket',
  TooDeep: 'more than 256 brackets are open at once',
  Namespace: '@namespace changes what every type selector means',
  TooManyItems: 'the sheet has more than 16,384 rules and at-rules',
  TooManyPairs: 'the style rules have more than 262,144 pairs of a selector and a declaration',
}

/**
 * A sheet was not minified. If it is refused, the error has the `kind` of the fault, its `offset` in bytes from 0, its
 * `line` and `column` from 1, the text of the line, and an `excerpt` of it with a mark. `status` is that of the program.
 */
export class CssminError extends Error {
  constructor(sheet, bytes, { status, said }) {
    const refused = /^refused: (\w+) at (\d+)$/.exec(said)
    if (!refused) {
      super(`${sheet}: ${said || `the program ended with ${status}`}`)
      Object.assign(this, { name: 'CssminError', sheet, status })
      return
    }
    const [, kind] = refused
    const offset = Number(refused[2])
    const place = placeOf(bytes, offset)
    const excerpt = kind === 'TooLong' ? '' : `\n${place.excerpt}`
    super(`${sheet}:${place.line}:${place.column}: ${kind}: ${FAULTS[kind] ?? said}${excerpt}`)
    Object.assign(this, { name: 'CssminError', sheet, status, kind, offset, ...place })
  }
}

// A place as `cssmin list` has it: a line ends with LF, CR LF or CR, a column counts code points, and a byte order mark at
// the start is none of them.
function placeOf(bytes, offset) {
  const hasMark = bytes[0] === 0xef && bytes[1] === 0xbb && bytes[2] === 0xbf
  let start = hasMark ? 3 : 0
  let line = 1
  for (let at = start; at < offset; at += 1) {
    if (!endsLine(bytes, at)) continue
    start = at + 1
    line += 1
  }
  let end = Math.max(start, offset)
  while (end < bytes.length && bytes[end] !== LINE_FEED && bytes[end] !== CARRIAGE_RETURN) end += 1
  const column = 1 + [...bytes.subarray(start, Math.max(start, offset)).toString()].length
  const lineText = bytes.subarray(start, end).toString()
  return { line, column, lineText, excerpt: excerptOf(line, column, lineText) }
}

const endsLine = (bytes, at) =>
  bytes[at] === LINE_FEED || (bytes[at] === CARRIAGE_RETURN && bytes[at + 1] !== LINE_FEED)

// the line with a mark below the column; no control character of a sheet reaches a terminal
function excerptOf(line, column, text) {
  const from = Math.max(0, column - 1 - SHOWN / 2)
  const shown = [...text].slice(from, from + SHOWN).join('').replace(/[\u0000-\u001f\u007f-\u009f\u2028\u2029]/g, ' ')
  const label = `${line} | `
  return `${label}${shown}\n${' '.repeat(label.length + column - 1 - from)}^`
}
