// Tries the extension for VS Code in a stub of it. For each trial there is a line `passed NAME` or `FAILED NAME: WHY`, and at the end `end`.
//
//   node trials.js EXTENSION PROGRAM LAUNCHER ROOM
'use strict'

const assert = require('assert')
const fs = require('fs')
const Module = require('module')
const path = require('path')
const stub = require('./vscode.js')

const [folder, program, launcher, room] = process.argv.slice(2)
const load = Module._load
Module._load = (name, ...more) => (name === 'vscode' ? stub : load(name, ...more))
const extension = require(path.join(folder, 'extension.js'))
const { Document, writer, shown, state } = stub.trying

const INPUT = 'in i: Events[Int]\n'
const RIGHT = `${INPUT}out i\n`
const WRONG = `${INPUT}out j\n`
// What is waited for comes within these milliseconds, and what must not come had these.
const SOON = 8000
const QUIET = 900

const temporary = path.join(room, 'temporary')
let number = 0

function sleep(time) {
  return new Promise((resolve) => setTimeout(resolve, time))
}

async function until(what, holds, limit = SOON) {
  const end = Date.now() + limit
  while (!holds()) {
    assert.ok(Date.now() < end, `it did not come: ${what}`)
    await sleep(10)
  }
}

function found(document) {
  return shown.get(document.uri.toString())
}

// Opens a document that is a file with this text, or with these bytes.
function open(text, name = `spec${number++}.tsl`, bytes = Buffer.from(text)) {
  const file = path.join(room, name)
  fs.writeFileSync(file, bytes)
  return writer.open(new Document(new stub.Uri('file', file), text))
}

async function result(document) {
  await until('a result', () => found(document))
  return found(document)
}

// The one refusal of a document: its kind, and where it begins and ends as LINE:CHARACTER, from 0.
async function refusal(document) {
  const all = await result(document)
  assert.strictEqual(all.length, 1)
  const { start, end } = all[0].range
  return [all[0].code, `${start.line}:${start.character}`, `${end.line}:${end.character}`]
}

async function refused(text, wanted, ...more) {
  const document = open(text, ...more)
  assert.deepStrictEqual(await refusal(document), wanted)
  return found(document)[0]
}

function script(name, text) {
  const file = path.join(room, name)
  fs.writeFileSync(file, `#!/bin/sh\n${text}\n`, { mode: 0o755 })
  return file
}

// The lines of a file, or none.
function lines(file) {
  try {
    return fs.readFileSync(file, 'utf8').split('\n').filter((it) => it)
  } catch {
    return []
  }
}

function isAlive(pid) {
  try {
    return !/\) [ZX] /.test(fs.readFileSync(`/proc/${pid}/stat`, 'latin1'))
  } catch {
    return false
  }
}

const trials = {
  async 'a refusal at its place'() {
    const one = await refused(WRONG, ['UnknownName', '1:4', '1:5'])
    assert.strictEqual(one.source, 'tessla')
    assert.strictEqual(one.severity, 0)
    assert.strictEqual(one.message, 'UnknownName')
  },
  async 'a refusal with cause and remedy'() {
    writer.set({ 'tessla.program': launcher })
    const one = await refused(WRONG, ['UnknownName', '1:4', '1:5'])
    assert.match(one.message, /^UnknownName\n.+\n.+$/)
  },
  async 'the remedy of what stands there'() {
    writer.set({ 'tessla.program': launcher })
    const one = await refused(`${INPUT}out i + 1.5 as x\n`, ['Unexpected', '1:9', '1:10'])
    assert.match(one.message, /1500 thousandths/)
  },
  async 'nothing where it is accepted'() {
    assert.deepStrictEqual(await result(open(RIGHT)), [])
  },
  async 'columns after characters of one and of two units'() {
    await refused('def s := "äö𝒳" + 1.5\nout s\n', ['Unexpected', '0:19', '0:20'])
    await refused('def s := "𝒳ä" + 😀\nout s\n', ['BadCharacter', '0:17', '0:19'])
    await refused('out lösung𝒳 + ö as x\n', ['UnknownName', '0:4', '0:12'])
    await refused('out e\u0301x + ö as x\n', ['UnknownName', '0:4', '0:7'])
  },
  async 'lines that end with CR and LF'() {
    await refused('in i: Events[Int]\r\n-- ä\r\nout  nothing\r\n', ['UnknownName', '2:5', '2:12'])
  },
  async 'the end of the text'() {
    await refused(`${INPUT}out i +`, ['Unexpected', '1:7', '1:7'])
  },
  async 'the parts of a cycle'() {
    writer.set({ 'tessla.program': launcher })
    const one = await refused('in i: Events[Int]\ndef a: Events[Int] := b + i\ndef b: Events[Int] := a + 1\nout a\n', ['cycle', '1:22', '1:23'])
    const parts = one.relatedInformation.map((it) => [it.message.split(',')[0], it.location.range.start.line, it.location.range.start.character])
    assert.deepStrictEqual(parts, [['a', 1, 4], ['b', 2, 4]])
  },
  async 'a line that looks like a part of a cycle is none'() {
    writer.set({ 'tessla.program': launcher })
    const one = await refused('out nothing # x/text.tsl:1:1: a\n', ['UnknownName', '0:4', '0:11'])
    assert.deepStrictEqual(one.relatedInformation, [])
  },
  async 'the text of the editor, not of the file'() {
    const document = open(RIGHT)
    await result(document)
    writer.change(document, WRONG)
    assert.deepStrictEqual(await refusal(document), ['UnknownName', '1:4', '1:5'])
  },
  async 'a document that was never saved'() {
    const document = writer.open(new Document(new stub.Uri('untitled', 'Untitled-1'), WRONG))
    assert.deepStrictEqual(await refusal(document), ['UnknownName', '1:4', '1:5'])
  },
  async 'a change takes away what was found, at once'() {
    const document = open(WRONG)
    await refusal(document)
    writer.change(document, RIGHT)
    assert.strictEqual(found(document), undefined)
    assert.deepStrictEqual(await result(document), [])
  },
  async 'what is saved without a change stays'() {
    const document = open(WRONG)
    await refusal(document)
    const before = state.sets
    writer.save(document)
    await until('a further result', () => state.sets > before)
    assert.deepStrictEqual(await refusal(document), ['UnknownName', '1:4', '1:5'])
  },
  async 'many changes are one run'() {
    const log = path.join(room, 'many')
    writer.set({ 'tessla.program': script('counting', `echo run >>'${log}'; exec '${program}' "$@"`), 'tessla.check': 'onType' })
    const document = open(RIGHT)
    await until('the first run', () => lines(log).length === 1 && found(document))
    for (let step = 0; step < 20; step++) {
      writer.change(document, `${WRONG}# ${step}\n`)
      await sleep(10)
    }
    assert.deepStrictEqual(await refusal(document), ['UnknownName', '1:4', '1:5'])
    assert.strictEqual(lines(log).length, 2)
  },
  async 'an earlier run is ended, and its result never shown'() {
    const log = path.join(room, 'slow')
    // What it starts has a process of its own.
    const slow = `if grep -q slow "$3"; then sh -c 'echo $$ >>${log}; sleep 60'; fi; exec '${program}' "$@"`
    writer.set({ 'tessla.program': script('slow.sh', slow) })
    const document = open(`${WRONG}# slow\n`)
    await until('the slow run', () => lines(log).length === 1)
    const pid = lines(log)[0]
    assert.ok(isAlive(pid))
    writer.change(document, `${INPUT}\nout nothing\n`)
    await until('its end', () => !isAlive(pid))
    assert.deepStrictEqual(await refusal(document), ['UnknownName', '2:4', '2:11'])
    await sleep(QUIET)
    assert.deepStrictEqual(await refusal(document), ['UnknownName', '2:4', '2:11'])
  },
  async 'a result of another version is not shown'() {
    const log = path.join(room, 'version')
    writer.set({ 'tessla.program': script('late', `echo run >>'${log}'; sleep 0.3; exec '${program}' "$@"`) })
    const document = open(WRONG)
    await until('the run', () => lines(log).length === 1)
    // A change of which no event has come yet.
    Object.assign(document, { text: RIGHT, version: document.version + 1 })
    await sleep(QUIET + 600)
    assert.strictEqual(found(document), undefined)
  },
  async 'a document that is closed meanwhile'() {
    const log = path.join(room, 'closed')
    writer.set({ 'tessla.program': script('closing', `echo $$ >>'${log}'; sleep 60`) })
    const document = open(WRONG)
    await until('the run', () => lines(log).length === 1)
    writer.close(document)
    await until('its end', () => !isAlive(lines(log)[0]))
    assert.strictEqual(found(document), undefined)
    writer.set({ 'tessla.program': program })
    const other = open(WRONG)
    await refusal(other)
    writer.close(other)
    assert.strictEqual(found(other), undefined)
  },
  async 'a limit of time'() {
    const log = path.join(room, 'hanging')
    writer.set({ 'tessla.program': script('hanging.sh', `echo $$ >>'${log}'; while :; do sleep 1; done`), 'tessla.seconds': 1 })
    const document = open(WRONG)
    await until('the warning', () => state.warnings.some((it) => it.includes('within 1 seconds')))
    await until('its end', () => !isAlive(lines(log)[0]))
    assert.strictEqual(found(document), undefined)
  },
  async 'a program that says without an end'() {
    writer.set({ 'tessla.program': script('saying', 'yes >&2'), 'tessla.seconds': 1 })
    const document = open(WRONG)
    await until('the warning', () => state.warnings.some((it) => it.includes('within 1 seconds')))
    assert.strictEqual(found(document), undefined)
    assert.ok(process.memoryUsage().rss < 500e6)
  },
  async 'a program that is not there, told once'() {
    writer.set({ 'tessla.program': '/dev/null/absent' })
    const document = open(WRONG)
    await until('the warning', () => state.warnings.length === 1)
    assert.match(state.warnings[0], /\/dev\/null\/absent.*tessla\.program/)
    writer.change(document, RIGHT)
    await sleep(QUIET)
    assert.strictEqual(state.warnings.length, 1)
    assert.strictEqual(found(document), undefined)
    writer.set({ 'tessla.program': '/dev/null/absent' })
    await until('the warning once more', () => state.warnings.length === 2)
    writer.set({ 'tessla.program': program })
    assert.deepStrictEqual(await result(document), [])
  },
  async 'a program that fails shows nothing old'() {
    const document = open(WRONG)
    await refusal(document)
    for (const [name, text] of [['killed', 'kill -9 $$'], ['failing', 'echo "tessla: not built" >&2; exit 125'], ['mute', 'exit 3']]) {
      state.warnings.length = 0
      writer.set({ 'tessla.program': script(`${name}.sh`, text) })
      await until(`the warning of ${name}`, () => state.warnings.length === 1)
      assert.match(state.warnings[0], { killed: /SIGKILL/, failing: /status 125: tessla: not built/, mute: /status 3$/ }[name])
      assert.strictEqual(found(document), undefined)
    }
  },
  async 'no program from the folder that is open'() {
    const marks = path.join(room, 'marks')
    fs.mkdirSync(path.join(room, 'open'))
    fs.renameSync(script('planted', `echo run >>'${marks}'`), path.join(room, 'open', 'tessla'))
    const before = { cwd: process.cwd(), path: process.env.PATH }
    process.chdir(path.join(room, 'open'))
    try {
      process.env.PATH = `.::${process.env.PATH}`
      for (const name of ['tessla', './tessla', 'open/tessla', '../open/tessla']) {
        state.warnings.length = 0
        writer.set({ 'tessla.program': name })
        open(WRONG)
        await until(`the answer to ${name}`, () => state.warnings.length > 0 || lines(marks).length)
      }
    } finally {
      process.chdir(before.cwd)
      process.env.PATH = before.path
    }
    assert.deepStrictEqual(lines(marks), [])
  },
  async 'a program on the path, and one of the home'() {
    const log = path.join(room, 'ways')
    const before = { path: process.env.PATH, home: process.env.HOME }
    fs.mkdirSync(path.join(room, 'a path'))
    fs.renameSync(script('on path', `echo path >>'${log}'; exec '${program}' "$@"`), path.join(room, 'a path', 'tessla'))
    fs.copyFileSync(path.join(room, 'a path', 'tessla'), path.join(room, 'a path', 'own'))
    process.env.PATH = `${path.join(room, 'a path')}:${before.path}`
    process.env.HOME = room
    try {
      for (const name of ['', 'tessla', '~/a path/own']) {
        writer.set({ 'tessla.program': name })
        await refusal(open(WRONG))
      }
    } finally {
      Object.assign(process.env, { PATH: before.path, HOME: before.home })
    }
    assert.ok(lines(log).length >= 3)
  },
  async 'only what is saved, or nothing, where that is set'() {
    writer.set({ 'tessla.program': program, 'tessla.check': 'onSave' })
    const document = open(RIGHT)
    assert.deepStrictEqual(await result(document), [])
    writer.change(document, WRONG)
    await sleep(QUIET)
    assert.strictEqual(found(document), undefined)
    fs.writeFileSync(document.uri.fsPath, WRONG)
    writer.save(document)
    assert.deepStrictEqual(await refusal(document), ['UnknownName', '1:4', '1:5'])
    writer.set({ 'tessla.program': program, 'tessla.check': 'off' })
    assert.strictEqual(found(document), undefined)
    writer.save(document)
    await sleep(QUIET)
    assert.strictEqual(found(document), undefined)
  },
  async 'other languages and schemes'() {
    const before = state.sets
    writer.open(new Document(new stub.Uri('file', path.join(room, 'a.txt')), WRONG, 'plaintext'))
    writer.open(new Document(new stub.Uri('git', path.join(room, 'a.tsl')), WRONG))
    await sleep(QUIET)
    assert.strictEqual(state.sets, before)
  },
  async 'hostile names'() {
    for (const name of ['a b.tsl', 'a\nb.tsl', '\'"`$(touch x)`.tsl', '%1 %s #.tsl', '-.tsl', 'ä\u202e\x1b[2J.tsl']) {
      await refused(WRONG, ['UnknownName', '1:4', '1:5'], name)
    }
  },
  async 'a file that is no UTF-8'() {
    const bytes = Buffer.concat([Buffer.from('# ä𝒳'), Buffer.from([0xff, 0x0a]), Buffer.from('out 1 as x\n')])
    const document = open(bytes.toString('utf8'), 'stray.tsl', bytes)
    assert.deepStrictEqual(await refusal(document), ['BadUtf8', '0:5', '0:6'])
    // Once it is written from the editor it is UTF-8.
    writer.change(document, document.getText() + '\n')
    assert.deepStrictEqual(await result(document), [])
  },
  async 'a file that has become a pipe'() {
    const document = open(RIGHT, 'pipe.tsl')
    fs.unlinkSync(document.uri.fsPath)
    require('child_process').execFileSync('mkfifo', [document.uri.fsPath])
    assert.deepStrictEqual(await result(document), [])
  },
  async 'halves of characters'() {
    assert.deepStrictEqual(await result(open('# \ud835\nout 1 as x\n', 'half.tsl')), [])
    await refused('def s := "\ud835\udcb3\ud835" + 1.5\nout s\n', ['Unexpected', '0:18', '0:19'], 'halves.tsl')
  },
  async 'sources of a mebibyte and more'() {
    const line = `# ${'x'.repeat(61)}\n`
    const most = `${line.repeat(16383)}${RIGHT}`.padEnd(1048576, '\n')
    assert.deepStrictEqual(await result(open(most)), [])
    const last = most.split('\n').length - 1
    await refused(`${most.slice(0, -5)}out j`, ['UnknownName', `${last - 5}:4`, `${last - 5}:5`])
    await refused(`${most}\n`, ['SpecTooLong', '0:0', '0:1'])
    await refused('𝒳 '.repeat(2000000), ['SpecTooLong', '0:0', '0:2'])
  },
  async 'the manifest has what is used'() {
    const manifest = JSON.parse(fs.readFileSync(path.join(folder, 'package.json'), 'utf8'))
    const code = fs.readFileSync(path.join(folder, manifest.main), 'utf8')
    const properties = Object.keys(manifest.contributes.configuration.properties)
    const used = Array.from(code.matchAll(/settings\(.*?\)\.get\('(\w+)'\)/g), (it) => `tessla.${it[1]}`)
    assert.deepStrictEqual(properties.sort(), used.sort())
    const modules = Array.from(code.matchAll(/require\('([^']+)'\)/g), (it) => it[1])
    assert.deepStrictEqual(modules.sort(), ['child_process', 'fs', 'os', 'path', 'vscode'])
  },
  async 'the end'() {
    const log = path.join(room, 'ending')
    writer.set({ 'tessla.program': script('ending.sh', `echo $$ >>'${log}'; sleep 60`) })
    const before = lines(log).length
    open(WRONG)
    await until('a run', () => lines(log).length > before)
    extension.deactivate()
    await until('the end of all', () => lines(log).every((pid) => !isAlive(pid)))
    await until('an empty folder', () => fs.readdirSync(temporary).length === 0)
  }
}

async function main() {
  fs.mkdirSync(temporary)
  process.env.TMPDIR = temporary
  state.settings = { 'tessla.program': program }
  extension.activate({ subscriptions: [] })
  for (const [name, trial] of Object.entries(trials)) {
    try {
      await trial()
      console.log(`passed ${name}`)
    } catch (error) {
      console.log(`FAILED ${name}: ${String(error.message).replace(/\s+/g, ' ').slice(0, 400)}`)
    }
    for (const document of [...stub.workspace.textDocuments]) writer.close(document)
    state.warnings.length = 0
    if (name !== 'the end') writer.set({ 'tessla.program': program })
  }
  console.log('end')
  process.exit(0)
}

main()
