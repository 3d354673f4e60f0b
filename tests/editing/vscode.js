// As much of VS Code as the extension uses: documents, what is shown in them, settings and events. Nothing of it is VS Code's own code.
'use strict'

class Position {
  constructor(line, character) {
    Object.assign(this, { line, character })
  }
}

class Range {
  constructor(start, end) {
    Object.assign(this, { start, end })
  }
}

class Diagnostic {
  constructor(range, message, severity) {
    Object.assign(this, { range, message, severity })
  }
}

class Location {
  constructor(uri, range) {
    Object.assign(this, { uri, range })
  }
}

class DiagnosticRelatedInformation {
  constructor(location, message) {
    Object.assign(this, { location, message })
  }
}

class Uri {
  constructor(scheme, path) {
    this.scheme = scheme
    this.fsPath = path
  }

  toString() {
    return `${this.scheme}://${encodeURI(this.fsPath)}`
  }
}

// A document. Its lines end with LF, CR LF or CR, as those of an editor do.
class Document {
  constructor(uri, text, languageId = 'tessla') {
    Object.assign(this, { uri, text, languageId, version: 1, isDirty: false, isClosed: false })
  }

  getText() {
    return this.text
  }

  positionAt(offset) {
    const before = this.text.slice(0, Math.min(offset, this.text.length)).split(/\r\n|\r|\n/)
    return new Position(before.length - 1, before[before.length - 1].length)
  }
}

class Event {
  constructor() {
    this.listeners = []
    this.on = (listener) => {
      this.listeners.push(listener)
      return { dispose: () => this.listeners.splice(this.listeners.indexOf(listener), 1) }
    }
  }

  fire(given) {
    for (const listener of [...this.listeners]) listener(given)
  }
}

const events = { open: new Event(), save: new Event(), change: new Event(), close: new Event(), configuration: new Event() }
// What is shown, by the names of documents; how often that was set; the warnings; and the settings.
const shown = new Map()
const state = { sets: 0, warnings: [], settings: {} }

const languages = {
  createDiagnosticCollection: () => ({
    set: (uri, diagnostics) => {
      state.sets += 1
      shown.set(uri.toString(), diagnostics)
    },
    delete: (uri) => shown.delete(uri.toString()),
    dispose: () => shown.clear()
  })
}

const workspace = {
  textDocuments: [],
  onDidOpenTextDocument: events.open.on,
  onDidSaveTextDocument: events.save.on,
  onDidChangeTextDocument: events.change.on,
  onDidCloseTextDocument: events.close.on,
  onDidChangeConfiguration: events.configuration.on,
  getConfiguration: (section) => ({ get: (name) => state.settings[`${section}.${name}`] })
}

const window = { showWarningMessage: (text) => state.warnings.push(text) }

// What somebody does who writes.
const writer = {
  open(document) {
    workspace.textDocuments.push(document)
    events.open.fire(document)
    return document
  },
  change(document, text) {
    Object.assign(document, { text, version: document.version + 1, isDirty: true })
    events.change.fire({ document, contentChanges: [{ text }] })
  },
  save(document) {
    document.isDirty = false
    events.change.fire({ document, contentChanges: [] })
    events.save.fire(document)
  },
  close(document) {
    document.isClosed = true
    workspace.textDocuments.splice(workspace.textDocuments.indexOf(document), 1)
    events.close.fire(document)
  },
  set(settings) {
    state.settings = settings
    events.configuration.fire({ affectsConfiguration: (name) => name === 'tessla' })
  }
}

module.exports = {
  Position, Range, Diagnostic, Location, DiagnosticRelatedInformation, Uri, languages, workspace, window,
  DiagnosticSeverity: { Error: 0, Warning: 1, Information: 2, Hint: 3 },
  trying: { Document, writer, shown, state }
}
