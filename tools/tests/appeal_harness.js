"use strict";

// Runs jobs over appeal.js in node: `node appeal_harness.js SCRIPT JOBS` prints a JSON list with the result of each job of a JSON file.
//   trees  {problem, form, tree, budget}     the verdict of a tree, or the fault of its bytes; and whether it spends the budget
//   pages  {evidence, printed}               the lines of a page; evidence is the text of its JSON
//   calls  {name, words}                     a function of the script by its name

const fs = require("fs");

const [script, jobs] = process.argv.slice(2).map(path => fs.readFileSync(path, "utf8"));
const named = new Function(`${script}\nreturn name => eval(name);`)();
const readTree = named("text => readTree(bytesOfHexadecimal(text))"), Check = named("Check"), judgments = named("judgments");

function setOf(items) {
    return items === null ? null : new Set(items);
}

function tree(job) {
    const problem = { ...job.problem, given: setOf(job.problem.given), barred: setOf(job.problem.barred), start: setOf(job.problem.start) };
    let read;
    try {
        read = readTree(job.tree);
    } catch (fault) {
        return [fault.message, null];
    }
    const check = new Check(problem, setOf(job.form), read);
    return [check.verdict(), check.spends(job.budget)];
}

function page(job) {
    return Array.from(judgments(job.evidence, () => job.printed));
}

function call(job) {
    return named(job.name)(...job.words);
}

const kinds = { trees: tree, pages: page, calls: call };
process.stdout.write(JSON.stringify(JSON.parse(jobs).map(job => kinds[job.kind](job))));
