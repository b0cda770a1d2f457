const find = id => document.getElementById(id);
// The data are a line of JSON for the program, one for what a line of the session did, if it did something, and one for each line with its
// reply and an explanation, if it has one. In a text, `<` and each byte that is not ASCII are characters from 256 on.
let session, values;
try {
  const data = find('session').textContent.trim().replace(/[\u0100-\u01ff]/g, sign => String.fromCharCode(sign.charCodeAt(0) - 256));
  [session, ...values] = JSON.parse('[' + data.replaceAll('\n', ',') + ']');
} catch (fault) {
  find('said').textContent = 'The data of the session are incomplete: ' + fault.message;
  return;
}

// Texts. They have each byte as one character. Valid UTF-8 becomes its characters, and any other byte is shown as \x
// and two digits. Control characters, and those that change the direction of a text, are shown by their numbers.
const SEQUENCES = new RegExp('[\\xc2-\\xdf][\\x80-\\xbf]|\\xe0[\\xa0-\\xbf][\\x80-\\xbf]|\\xed[\\x80-\\x9f][\\x80-\\xbf]|' +
  '[\\xe1-\\xec\\xee\\xef][\\x80-\\xbf]{2}|\\xf0[\\x90-\\xbf][\\x80-\\xbf]{2}|[\\xf1-\\xf3][\\x80-\\xbf]{3}|\\xf4[\\x80-\\x8f][\\x80-\\xbf]{2}|' +
  '[\\x80-\\xff]', 'g');
const INVISIBLE = new RegExp('[\\0-\\x08\\x0b-\\x1f\\x7f-\\x9f\\xad\\u061c\\u180e\\u200b-\\u200f\\u2028-\\u202f\\u2060-\\u206f\\ufeff' +
  '\\ufff9-\\ufffb]', 'g');
const UNUSUAL = new RegExp('[^\\t\\n -~]');
function numbered(sign) {
  const code = sign.charCodeAt(0).toString(16);
  return code.length > 2 ? '\\u{' + code + '}' : '\\x' + code.padStart(2, '0');
}
function sequence(bytes) {
  return bytes.length === 1 ? numbered(bytes) : decodeURIComponent(bytes.replace(/./gs, byte => '%' + byte.charCodeAt(0).toString(16)));
}
function readable(text) {
  return UNUSUAL.test(text) ? text.replace(SEQUENCES, sequence).replace(INVISIBLE, numbered) : text;
}

// A value is its number, and after a blank the word that is shown for it, if one is. The number is looked up by the word.
const numbers = new Map();
function written(value) {
  const end = value.indexOf(' '), word = value.slice(end + 1);
  if (end > 0) numbers.set(word, value.slice(0, end));
  return word;
}

const processes = session.processes, count = processes.length;
for (const {variables} of processes) for (const variable of variables) variable[1] = written(variable[1]);
const lines = values.filter(([text]) => typeof text === 'string'), lineOperations = lines.map(() => []);
for (const value of values) if (typeof value[0] === 'number') lineOperations[value[0] - 1] = value.slice(1);
for (const line of lines) line.forEach((text, i) => line[i] = readable(text));
for (const {commands} of processes) for (const command of commands) command[1] = readable(command[1]);
