// Which comments stay, and where they come.

import assert from 'node:assert/strict'
import { test } from 'node:test'
import { licences, minifySync } from '../cssmin.mjs'

test('the comments that have to stay', () => {
  for (const [sheet, found] of [
    ['', []],
    ['/* a */b{}', []],
    ['/*! a */b{}/*! c\n */', ['/*! a */', '/*! c\n */']],
    ['/*! a */b{}/*! a */', ['/*! a */']],
    ['/* @license MIT */ /* @preserve */ /* @licensed */', ['/* @license MIT */', '/* @preserve */']],
    ['a{b:"/*! no */"}', []],
    ["a{b:'/*! no */'}", []],
    ['a{b:"\\"/*! no */"}/*! c */', ['/*! c */']],
    ['a{b:url(/*! no */)}', []],
    ['a{b:url( "x" /*! c */)}', ['/*! c */']],
    ['a{b:URL( x/*! no */ )}', []],
    ['a{b:no-url(/*! c */)}', ['/*! c */']],
    ['.a\\"{}/*! c */', ['/*! c */']],
    ['/* " */b{}/*! c */', ['/*! c */']],
    ['/* /*! no */b{}', []],
    ['/*! no', []],
    ['/*/', []],
    ['/*!*/', ['/*!*/']],
  ])
    assert.deepEqual(licences(sheet), found, sheet)
})

test('they come first, but after @charset', () => {
  const css = (sheet, options) => minifySync(sheet, options).css
  assert.equal(css('b { top : 0 } /*! a */'), '/*! a */\nb{top:0}')
  assert.equal(css('/*! a */b{top:0}/* @license c */'), '/*! a */\n/* @license c */\nb{top:0}')
  assert.equal(css('/*! a */ b { top : 0 }', { licences: false }), 'b{top:0}')
  assert.equal(css('@charset "utf-8"; /*! a */ b { top : 0 }'), '@charset "utf-8";/*! a */\nb{top:0}')
})

test('what has them first stays as it is', () => {
  for (const sheet of ['/*! a */ /*! c */ b { top : 0 }', '@charset "utf-8";/*! a */b{top:0}', '/*! a */']) {
    const { css } = minifySync(sheet)
    assert.equal(minifySync(css).css, css)
  }
})
