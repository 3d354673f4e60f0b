// Opens files in the extension for VS Code, in a stub of it, and prints what is shown of each: the lines and the messages.
//
//   node mutated.js EXTENSION PROGRAM FILE..
'use strict'

const fs = require('fs')
const Module = require('module')
const path = require('path')
const stub = require('./vscode.js')

const [folder, program, ...files] = process.argv.slice(2)
const load = Module._load
Module._load = (name, ...more) => (name === 'vscode' ? stub : load(name, ...more))
const extension = require(path.join(folder, 'extension.js'))
const { Document, writer, shown, state } = stub.trying
const END = Date.now() + 90000

async function all() {
  state.settings = { 'tessla.program': program, 'tessla.seconds': 60 }
  extension.activate({ subscriptions: [] })
  const documents = files.map((file) => writer.open(new Document(new stub.Uri('file', file), fs.readFileSync(file, 'utf8').replace(/^\ufeff/, ''))))
  const found = (document) => shown.get(document.uri.toString())
  while (!documents.every(found) && !state.warnings.length && Date.now() < END) await new Promise((resolve) => setTimeout(resolve, 20))
  const rows = documents.map((it) => (found(it) || []).map(({ range, message }) => [range.start.line, message]))
  console.log(JSON.stringify({ shown: rows, warnings: state.warnings }))
  extension.deactivate()
}

all()
