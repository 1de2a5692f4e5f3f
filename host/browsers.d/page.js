// Runs the cases that the page's address names, in their order, each over a connection of its own.
import { cases } from './cases.js';
import { Connection, parameters } from './connection.js';

async function run(name) {
  const connection = new Connection();
  try {
    const note = await cases[name](connection);
    return { case: name, passed: true, note: note ?? '' };
  } catch (error) {
    return { case: name, passed: false, note: `${error.message}; ${connection.state()}` };
  } finally {
    connection.end();
  }
}

for (const name of parameters.get('cases').split(',')) {
  const result = await run(name);
  document.getElementById('results').textContent += JSON.stringify(result) + '\n';
  await fetch('result', { method: 'POST', body: JSON.stringify(result) });
}
