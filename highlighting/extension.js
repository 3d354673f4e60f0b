// Shows in VS Code what `tessla check` says of a specification, at its place.
//
// The text of the editor is written to a file of its own, so what is checked is what stands there and not what was saved. A later change ends the
// run before, and takes its result away: what is shown is always of the text as it is. Where the program can't be started, or doesn't end in time,
// nothing is shown in the text, and a message says so once.
'use strict'

const { spawn } = require('child_process')
const fs = require('fs')
const os = require('os')
const path = require('path')
const vscode = require('vscode')

// So long after a change of the text the program is started, in milliseconds.
const PAUSE = 300
// A longer source is refused, whatever follows.
const MOST_BYTES = 1048576
// So much of what the program says is kept.
const MOST_SAID = 65536
const REFUSED = 3

const PLACE = /^spec ([0-9]+):([0-9]+): (.*)$/m
// The definitions of a cycle, each at its place: a file, which is ours, and its line and column.
const PART = /^ {2}\S.*text\.tsl:([0-9]+):([0-9]+): (.*)$/gm
const HELPS = /^ {2}(?:cause: {2}|remedy: )(.*)$/gm
const TOKEN = /[\p{L}_][\p{L}\p{M}\p{N}_]*|[0-9]+|"(?:\\.|[^"\\\n])*"?|:=|\|\||&&|[=!<>]=|\S/uy

let found
let told = new Set()
// What goes on for a document, by its name.
const checks = new Map()

// Where in a text stands a line and a column, which counts characters. Here texts are counted in units of 16 bits, of which some characters have two.
function offsetOf(text, line, column) {
  let at = 0
  for (let number = 1; number < line; number++) {
    const end = text.indexOf('\n', at)
    if (end < 0) return text.length
    at = end + 1
  }
  for (let number = 1; number < column && at < text.length && text[at] !== '\n'; number++) {
    at += text.codePointAt(at) > 0xffff ? 2 : 1
  }
  return at
}

// The range of what stands at a place.
function rangeOf(document, text, line, column) {
  const at = offsetOf(text, Number(line), Number(column))
  TOKEN.lastIndex = at
  const token = TOKEN.exec(text)
  return new vscode.Range(document.positionAt(at), document.positionAt(at + (token ? token[0].length : 0)))
}

// What the program has said of a text, as the editor shows it.
function diagnosticOf(document, text, said) {
  const place = PLACE.exec(said)
  if (!place) return undefined
  const [, line, column, message] = place
  const helps = Array.from(said.matchAll(HELPS), (it) => it[1])
  const shown = new vscode.Diagnostic(rangeOf(document, text, line, column), [message, ...helps].join('\n'), vscode.DiagnosticSeverity.Error)
  shown.source = 'tessla'
  shown.code = message.split(/[: ]/)[0]
  const parts = Array.from(said.matchAll(PART), (it) => [rangeOf(document, text, it[1], it[2]), it[3]])
  shown.relatedInformation = parts.map(([range, name]) => new vscode.DiagnosticRelatedInformation(new vscode.Location(document.uri, range), name))
  return shown
}

// Says once what is wrong with the program.
function tell(text) {
  if (told.has(text)) return
  told.add(text)
  vscode.window.showWarningMessage(`TeSSLa: ${text}`)
}

function settings(document) {
  return vscode.workspace.getConfiguration('tessla', document.uri)
}

// The program's name or whole path. A path from a folder would be of whatever folder is open, so it is none.
function programOf(document) {
  const given = settings(document).get('program') || 'tessla'
  const program = given.startsWith('~/') ? path.join(os.homedir(), given.slice(2)) : given
  if (!path.isAbsolute(program) && /[/\\]/.test(program)) {
    tell(`the setting tessla.program is neither a name nor a whole path: ${given}`)
    return undefined
  }
  return program
}

// The folders of the PATH without those that would be of whatever folder is open.
function environment() {
  const folders = (process.env.PATH || '').split(path.delimiter).filter((it) => path.isAbsolute(it))
  return { ...process.env, PATH: folders.join(path.delimiter), TESSLA_TERMINAL: '1', TESSLA_BUILD: '0', NO_COLOR: '1' }
}

// The bytes of a document. Where it is saved these are the bytes of its file: what is no UTF-8 there can't be seen in its text.
function bytesOf(document) {
  const text = document.getText()
  if (document.uri.scheme === 'file' && !document.isDirty) {
    try {
      // What has become a pipe would be waited for.
      const kind = fs.statSync(document.uri.fsPath)
      const data = kind.isFile() && kind.size <= MOST_BYTES ? fs.readFileSync(document.uri.fsPath) : undefined
      if (data && data.toString('utf8').replace(/^\ufeff/, '') === text) return data
    } catch {
      // It is gone, or can't be read; the text is there.
    }
  }
  return Buffer.from(text, 'utf8')
}

// A run of the program over the text of a document.
class Run {
  constructor(document, program) {
    this.document = document
    this.version = document.version
    this.text = document.getText()
    this.said = ''
    this.folder = fs.mkdtempSync(path.join(os.tmpdir(), 'tessla-'))
    const file = path.join(this.folder, 'text.tsl')
    try {
      fs.writeFileSync(file, bytesOf(document).subarray(0, MOST_BYTES + 1), { flag: 'wx', mode: 0o600 })
      this.start(program, file)
    } catch (error) {
      this.end()
      throw error
    }
  }

  start(program, file) {
    const wrong = (error) => this.close(`${program} can't be started: ${error.message}. The setting tessla.program names it.`)
    try {
      // It has a group of its own, so that what it starts ends with it. Its folder is none that somebody else has filled.
      const how = { cwd: this.folder, env: environment(), stdio: ['ignore', 'ignore', 'pipe'], detached: process.platform !== 'win32' }
      this.child = spawn(program, ['check', '--', file], how)
    } catch (error) {
      return wrong(error)
    }
    const seconds = Math.min(settings(this.document).get('seconds') || 10, 600)
    this.timer = setTimeout(() => this.close(`${program} has not ended within ${seconds} seconds`), 1000 * seconds)
    this.child.stderr.setEncoding('utf8')
    this.child.stderr.on('data', (piece) => {
      this.said = (this.said + piece).slice(0, MOST_SAID)
    })
    this.child.on('error', wrong)
    this.child.on('close', (status, signal) => {
      if (!this.isOver) this.take(program, status, signal)
    })
  }

  // Takes what the program has said, once it has ended by itself.
  take(program, status, signal) {
    const shown = status === REFUSED ? diagnosticOf(this.document, this.text, this.said) : undefined
    if (status !== 0 && !shown) {
      const line = this.said.split('\n')[0].slice(0, 200)
      return this.close(`${program} ends with ${signal || `status ${status}`}${line && `: ${line}`}`)
    }
    if (this.document.version === this.version && !this.document.isClosed) found.set(this.document.uri, shown ? [shown] : [])
    this.close()
  }

  // Ends it, and says why where that is wrong.
  close(wrong) {
    if (this.isOver) return
    this.end()
    if (wrong) tell(wrong)
  }

  end() {
    this.isOver = true
    clearTimeout(this.timer)
    if (this.child && this.child.pid && this.child.exitCode === null && this.child.signalCode === null) {
      try {
        process.kill(process.platform === 'win32' ? this.child.pid : -this.child.pid, 'SIGKILL')
      } catch {
        // It has ended meanwhile.
      }
    }
    fs.rmSync(this.folder, { recursive: true, force: true })
  }
}

// Forgets what was found of a document, and ends what goes on.
function forget(document) {
  const check = checks.get(document.uri.toString())
  if (check) {
    clearTimeout(check.timer)
    if (check.run) check.run.close()
    checks.delete(document.uri.toString())
  }
  found.delete(document.uri)
}

function begin(document, check) {
  const program = programOf(document)
  if (!program || document.isClosed) return
  try {
    check.run = new Run(document, program)
  } catch (error) {
    tell(`the text can't be checked: ${error.message}`)
  }
}

// Checks a document after a pause, in which a further change begins anew.
function check(document, when, pause) {
  if (document.languageId !== 'tessla' || !['file', 'untitled'].includes(document.uri.scheme)) return
  forget(document)
  const chosen = settings(document).get('check') || 'onType'
  if (chosen === 'off' || (chosen === 'onSave' && when === 'onType')) return
  const started = {}
  started.timer = setTimeout(() => begin(document, started), pause)
  checks.set(document.uri.toString(), started)
}

function checkAll() {
  told = new Set()
  for (const document of vscode.workspace.textDocuments) check(document, 'onSave', 0)
}

function activate(context) {
  found = vscode.languages.createDiagnosticCollection('tessla')
  context.subscriptions.push(
    found,
    vscode.workspace.onDidOpenTextDocument((document) => check(document, 'onSave', 0)),
    vscode.workspace.onDidSaveTextDocument((document) => check(document, 'onSave', 0)),
    // An event without a change says that the text is saved or not.
    vscode.workspace.onDidChangeTextDocument((event) => event.contentChanges.length && check(event.document, 'onType', PAUSE)),
    vscode.workspace.onDidCloseTextDocument(forget),
    vscode.workspace.onDidChangeConfiguration((event) => event.affectsConfiguration('tessla') && checkAll())
  )
  checkAll()
}

function deactivate() {
  for (const { timer, run } of checks.values()) {
    clearTimeout(timer)
    if (run) run.close()
  }
  checks.clear()
}

module.exports = { activate, deactivate }
