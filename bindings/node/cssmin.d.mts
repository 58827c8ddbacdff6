/** What a call may be asked for. */
export interface Options {
  /** The name of the sheet in errors. */
  name?: string
  /** Give up on two selectors after so many learned clauses, 0 to 20000. Without it they are decided. */
  budget?: number
  /** Whether comments such as `/*!` are put before the text. They are, if this is not false. */
  licences?: boolean
  /** Whether there is a report of what blocks further steps. */
  report?: boolean
}

export interface Minified {
  css: string
  report?: string
}

/** Why a sheet was not minified. The places are there if the sheet is refused. */
export declare class CssminError extends Error {
  sheet: string
  /** The status of the program, or the name of the signal that ended it. */
  status: number | string
  kind?: string
  /** In bytes, from 0. */
  offset?: number
  /** From 1. */
  line?: number
  /** In characters, from 1. */
  column?: number
  lineText?: string
  excerpt?: string
}

export declare function minify(source: string | Uint8Array, options?: Options): Promise<Minified>
export declare function minifySync(source: string | Uint8Array, options?: Options): Minified
export declare function compare(left: string, right: string, options?: Pick<Options, 'budget'>): string
export declare function licences(sheet: string): string[]
/** The path of the program that processes run. */
export declare const program: string

/** Plugins. Their types are those of the tools, which this package does not depend on. */
export declare function esbuild(options?: Options): any
export declare function vite(options?: Options): any
export declare function postcss(options?: Options): any
export default postcss
