// Sheets read, and targets written.

import { fstatSync, rmSync } from 'node:fs'
import { access, chmod, chown, constants, lstat, mkdir, open, readlink, realpath, rename, rm, stat } from 'node:fs/promises'
import { basename, dirname, join, resolve } from 'node:path'

/** The name that stands for standard input, and for standard output. */
export const STREAM = '-'

const MOST_BYTES = 1_048_576 // of a sheet
const MOST_LINKS = 40
// a name that Linux gives an open file
const OPEN_FILE = /^\/proc\/[^/]+\/(?:task\/[^/]+\/)?fd\/\d+$/

const REASONS = {
  EACCES: 'not allowed',
  EBUSY: 'in use',
  EDQUOT: 'the disk is full',
  EEXIST: 'a file of this name is in the way',
  EISDIR: 'a folder',
  ELOOP: 'links without an end',
  ENAMETOOLONG: 'the name is too long',
  ENOENT: 'not there',
  ENOSPC: 'the disk is full',
  ENOTDIR: 'a part of its path is no folder',
  ENXIO: 'nobody reads it',
  EPERM: 'not allowed',
  EPIPE: 'closed by its reader',
  EROFS: 'the disk is read-only',
}

/** What went wrong with a file, in words. */
export const reasonOf = error => REASONS[error.code] ?? error.message

const failure = code => Object.assign(new Error(code), { code })

const missing = error => {
  if (error.code === 'ENOENT') return null
  throw error
}

/** The bytes of a sheet; no more than one byte too many, which is enough to refuse it. */
export async function readSheet(name) {
  const pieces = []
  let left = MOST_BYTES + 1
  const file = name === STREAM ? null : await open(name)
  if (file === null && fstatSync(0).isDirectory()) throw failure('EISDIR') // node reads nothing of it
  try {
    for await (const piece of file ? file.createReadStream({ end: MOST_BYTES, autoClose: false }) : process.stdin) {
      pieces.push(piece.subarray(0, left))
      left -= piece.length
      if (left <= 0) break
    }
  } finally {
    await file?.close()
  }
  return Buffer.concat(pieces)
}

/** What tells a regular file from all others, by whatever name or link; null if there is none. */
export async function identityOf(name) {
  const info = name === STREAM ? fstatSync(0, { bigint: true }) : await stat(name, { bigint: true }).catch(() => null)
  return info?.isFile() ? `${info.dev} ${info.ino}` : null
}

/**
 * Writes a target. A regular file has its whole new text, or stays as it was; so do its mode and its links. Anything else,
 * such as a pipe or a device, is written to and never replaced.
 */
export async function writeTarget(name, text) {
  if (name === STREAM) return writeStream(text)
  const { place, info } = await follow(name)
  if (place === `/proc/${process.pid}/fd/1`) return writeStream(text)
  if (info?.isDirectory() || name.endsWith('/')) throw failure('EISDIR')
  if (info && (OPEN_FILE.test(place) || !info.isFile())) return writeInto(place, text)
  if (info) await access(place, constants.W_OK)
  else await makeFolder(dirname(place))
  await replace(place, info, text)
}

function writeStream(text) {
  return new Promise((done, fail) => {
    process.stdout.once('error', fail)
    process.stdout.write(text, error => (error ? fail(error) : done()))
  })
}

// where links lead, and what is there; a link of Linux to an open file is not followed
async function follow(name) {
  let place = resolve(name)
  for (let links = 0; links < MOST_LINKS; links += 1) {
    const folder = await realpath(dirname(place)).catch(missing)
    if (folder === null) return { place, info: null }
    place = join(folder, basename(place))
    if (OPEN_FILE.test(place)) return { place, info: await stat(place).catch(missing) }
    const info = await lstat(place).catch(missing)
    if (!info?.isSymbolicLink()) return { place, info }
    place = resolve(folder, await readlink(place))
  }
  throw failure('ELOOP')
}

// one folder after the other: the recursive call of node does not end below /proc
async function makeFolder(folder) {
  if (await stat(folder).catch(missing)) return
  if (dirname(folder) !== folder) await makeFolder(dirname(folder))
  await mkdir(folder).catch(error => {
    if (error.code !== 'EEXIST') throw error
  })
}

// no byte that is there is lost: an open file may be one that another program appends to
async function writeInto(place, text) {
  const file = await open(place, constants.O_WRONLY | constants.O_APPEND)
  await file.writeFile(text).finally(() => file.close())
}

const unfinished = new Set()
let count = 0

/** Removes what a run that is cut off would leave behind. */
export function removeUnfinished() {
  for (const place of unfinished) rmSync(place, { force: true })
}

async function replace(place, info, text) {
  const beside = join(dirname(place), `.cssmin-${process.pid}-${(count += 1)}`)
  const file = await open(beside, 'wx')
  unfinished.add(beside)
  try {
    await file.writeFile(text).finally(() => file.close())
    if (info) {
      await chown(beside, info.uid, info.gid).catch(() => {})
      await chmod(beside, info.mode & 0o777)
    }
    await rename(beside, place)
  } catch (error) {
    await rm(beside, { force: true })
    throw error
  } finally {
    unfinished.delete(beside)
  }
}
