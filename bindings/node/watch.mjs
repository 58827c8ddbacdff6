// Sheets watched, and written again when they change.

import { watch } from 'node:fs'
import { realpath, stat } from 'node:fs/promises'
import { basename, dirname } from 'node:path'

const QUIET = 50 // milliseconds without a change, before a sheet is read

/** Performs a job again each time that its sheet changes. Does not end. Throws if a folder of a sheet is not there. */
export async function watchSheets(jobs, perform) {
  const folders = new Map()
  for (const job of jobs) {
    const again = repeater(job, perform)
    // a link and where it leads; folders, since editors put a new file in the place of the old one
    const places = new Set([job.sheet, await realpath(job.sheet).catch(() => job.sheet)])
    for (const place of places) {
      const names = folders.get(dirname(place)) ?? new Map()
      folders.set(dirname(place), names.set(basename(place), [...(names.get(basename(place)) ?? []), again]))
    }
  }
  for (const [folder, names] of folders)
    watch(folder, (_, name) => {
      for (const again of names.get(name) ?? []) again()
    })
}

// what to call at each change: one run after the other, once it is quiet
function repeater(job, perform) {
  let timer
  let last = Promise.resolve()
  return () => {
    clearTimeout(timer)
    timer = setTimeout(() => {
      last = last.then(async () => {
        if (await stat(job.sheet).catch(() => null)) await perform(job)
      })
    }, QUIET)
  }
}
