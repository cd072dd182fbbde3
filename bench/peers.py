"""The free solvers beside which assembly.py times the assembler: GLPK, CBC, HiGHS and SYMPHONY, each on the same 0-1 models.

Each peer is a child process of its own that reads all models, solves each several times, and tells for each the least time of
the solve call alone, in microseconds, whether it says optimal, and the columns that are 1. The three in C are compiled from the
texts below in a temporary folder. A peer that can't be made is left out.
"""
import os
import subprocess
import sys
from collections import namedtuple

# lower and upper bounds of the columns, costs (to be maximised), rows (low, high, [(column, coefficient)]); all whole numbers
Model = namedtuple("Model", "lower upper cost rows")
Solved = namedtuple("Solved", "microseconds optimal ones")

LIMIT = 60  # seconds a solve may take

# Debian's library of SYMPHONY exports its calls by their names in C++
AS_CXX = ("g++", "-x", "c++", "-fpermissive", "-w")

HOW = {
    "GLPK": "apt-get install libglpk-dev gcc",
    "CBC": "apt-get install coinor-libcbc-dev gcc pkg-config",
    "HiGHS": "apt-get install python3-scipy (1.9 or later; the interpreter that runs this or /usr/bin/python3 must have it)",
    "SYMPHONY": "apt-get install coinor-libsymphony-dev g++ pkg-config",
}

READING = r"""
#include <stdio.h>
#include <stdlib.h>
#include <time.h>
static double now(void) {
  struct timespec t;
  clock_gettime(CLOCK_MONOTONIC, &t);
  return t.tv_sec * 1e6 + t.tv_nsec / 1e3;
}
static int number(FILE *in) {
  int n;
  if (fscanf(in, "%d", &n) != 1) exit(3);
  return n;
}
"""

GLPK = READING + r"""
#include <glpk.h>
static glp_prob *read_model(FILE *in, int *columns) {
  glp_prob *p = glp_create_prob();
  int cols = number(in), rows = number(in);
  *columns = cols;
  glp_set_obj_dir(p, GLP_MAX);
  glp_add_cols(p, cols);
  if (rows) glp_add_rows(p, rows);
  for (int c = 1; c <= cols; c++) {
    int low = number(in), high = number(in), cost = number(in);
    glp_set_col_kind(p, c, GLP_BV);
    if (low == high) glp_set_col_bnds(p, c, GLP_FX, low, low);
    glp_set_obj_coef(p, c, cost);
  }
  int *ind = malloc((cols + 1) * sizeof *ind);
  double *val = malloc((cols + 1) * sizeof *val);
  for (int r = 1; r <= rows; r++) {
    int low = number(in), high = number(in), count = number(in);
    glp_set_row_bnds(p, r, low == high ? GLP_FX : GLP_DB, low, high);
    for (int k = 1; k <= count; k++) { ind[k] = number(in); val[k] = number(in); ind[k]++; }
    glp_set_mat_row(p, r, count, ind, val);
  }
  free(ind); free(val);
  return p;
}
int main(int argc, char **argv) {
  FILE *in = fopen(argv[1], "r"), *out = fopen(argv[2], "w");
  int models = number(in), rounds = number(in), limit = number(in);
  glp_term_out(GLP_OFF);
  while (models--) {
    int cols;
    glp_prob *p = read_model(in, &cols);
    double best = 1e18, spent = 0;
    for (int k = 0; k < rounds && spent < 5e5; k++) {
      glp_iocp parm;
      glp_init_iocp(&parm);
      parm.presolve = GLP_ON;
      parm.mip_gap = 0;
      parm.msg_lev = GLP_MSG_OFF;
      parm.tm_lim = limit * 1000;
      double start = now();
      glp_intopt(p, &parm);
      double took = now() - start;
      spent += took;
      if (took < best) best = took;
    }
    fprintf(out, "%.1f %d", best, glp_mip_status(p) == GLP_OPT);
    for (int c = 1; c <= cols; c++) if (glp_mip_col_val(p, c) > 0.5) fprintf(out, " %d", c - 1);
    fprintf(out, "\n");
    glp_delete_prob(p);
  }
  return fclose(out);
}
"""

# a model by columns, for the solvers that take it so; `place` is the solver's type of a place among the elements
BY_COLUMNS = r"""
typedef struct { int cols, rows, nz; place *start; int *index; double *value, *lower, *upper, *cost, *low, *high; } model;
static model read_model(FILE *in) {
  model m;
  m.cols = number(in); m.rows = number(in); m.nz = 0;
  m.lower = calloc(m.cols, sizeof(double)); m.upper = calloc(m.cols, sizeof(double)); m.cost = calloc(m.cols, sizeof(double));
  m.low = calloc(m.rows + 1, sizeof(double)); m.high = calloc(m.rows + 1, sizeof(double));
  for (int c = 0; c < m.cols; c++) { m.lower[c] = number(in); m.upper[c] = number(in); m.cost[c] = number(in); }
  double *dense = calloc((size_t)m.cols * (m.rows + 1), sizeof(double));
  for (int r = 0; r < m.rows; r++) {
    m.low[r] = number(in); m.high[r] = number(in);
    for (int k = number(in); k > 0; k--) { int c = number(in); dense[(size_t)c * m.rows + r] = number(in); m.nz++; }
  }
  m.start = calloc(m.cols + 1, sizeof(place)); m.index = calloc(m.nz + 1, sizeof(int)); m.value = calloc(m.nz + 1, sizeof(double));
  int at = 0;
  for (int c = 0; c < m.cols; c++) {
    m.start[c] = at;
    for (int r = 0; r < m.rows; r++) {
      double v = dense[(size_t)c * m.rows + r];
      if (v != 0) { m.index[at] = r; m.value[at++] = v; }
    }
  }
  m.start[m.cols] = at;
  free(dense);
  return m;
}
static void free_model(model m) {
  free(m.start); free(m.index); free(m.value); free(m.lower); free(m.upper); free(m.cost); free(m.low); free(m.high);
}
"""

CBC = READING + r"""
#include <Cbc_C_Interface.h>
typedef CoinBigIndex place;
""" + BY_COLUMNS + r"""
static Cbc_Model *made(const model *m, const char *limit) {
  Cbc_Model *c = Cbc_newModel();
  Cbc_loadProblem(c, m->cols, m->rows, m->start, m->index, m->value, m->lower, m->upper, m->cost, m->low, m->high);
  Cbc_setObjSense(c, -1);
  for (int i = 0; i < m->cols; i++) Cbc_setInteger(c, i);
  Cbc_setParameter(c, "logLevel", "0");
  Cbc_setParameter(c, "slogLevel", "0");
  Cbc_setParameter(c, "ratioGap", "0");
  Cbc_setParameter(c, "allowableGap", "0");
  Cbc_setParameter(c, "seconds", limit);
  return c;
}
int main(int argc, char **argv) {
  FILE *in = fopen(argv[1], "r"), *out = fopen(argv[2], "w");
  int models = number(in), rounds = number(in);
  char limit[20];
  snprintf(limit, sizeof limit, "%d", number(in));
  while (models--) {
    model m = read_model(in);
    double best = 1e18, spent = 0;
    for (int k = 0; k < rounds && spent < 5e5; k++) {
      Cbc_Model *c = made(&m, limit);
      double start = now();
      Cbc_solve(c);
      double took = now() - start;
      spent += took;
      if (took < best) best = took;
      if (k == rounds - 1 || spent >= 5e5) {
        const double *x = Cbc_getColSolution(c);
        fprintf(out, "%.1f %d", best, Cbc_isProvenOptimal(c));
        for (int i = 0; x && i < m.cols; i++) if (x[i] > 0.5) fprintf(out, " %d", i);
        fprintf(out, "\n");
      }
      Cbc_deleteModel(c);
    }
    free_model(m);
  }
  return fclose(out);
}
"""

SYMPHONY = READING + r"""
#include <symphony.h>
typedef int place;
""" + BY_COLUMNS + r"""
static sym_environment *made(const model *m, int limit) {
  sym_environment *s = sym_open_environment();
  char *whole = malloc(m->cols), *sense = malloc(m->rows + 1);
  double *cost = malloc(m->cols * sizeof *cost), *range = calloc(m->rows + 1, sizeof *range);
  for (int c = 0; c < m->cols; c++) { whole[c] = 1; cost[c] = -m->cost[c]; }
  for (int r = 0; r < m->rows; r++) {
    sense[r] = m->low[r] == m->high[r] ? 'E' : 'R';
    range[r] = m->high[r] - m->low[r];
  }
  sym_set_int_param(s, "verbosity", -2);
  sym_set_dbl_param(s, "time_limit", limit);
  sym_set_dbl_param(s, "gap_limit", 0);
  sym_explicit_load_problem(s, m->cols, m->rows, m->start, m->index, m->value, m->lower, m->upper, whole, cost, NULL,
                            sense, m->high, range, 1);
  free(whole); free(sense); free(cost); free(range);
  return s;
}
int main(int argc, char **argv) {
  FILE *in = fopen(argv[1], "r"), *out = fopen(argv[2], "w");
  int models = number(in), rounds = number(in), limit = number(in);
  while (models--) {
    model m = read_model(in);
    double best = 1e18, spent = 0;
    for (int k = 0; k < rounds && spent < 5e5; k++) {
      sym_environment *s = made(&m, limit);
      double start = now();
      sym_solve(s);
      double took = now() - start;
      spent += took;
      if (took < best) best = took;
      if (k == rounds - 1 || spent >= 5e5) {
        double *x = calloc(m.cols, sizeof *x);
        int is_there = sym_get_col_solution(s, x) == FUNCTION_TERMINATED_NORMALLY;
        fprintf(out, "%.1f %d", best, sym_is_proven_optimal(s) != 0);
        for (int c = 0; is_there && c < m.cols; c++) if (x[c] > 0.5) fprintf(out, " %d", c);
        fprintf(out, "\n");
        free(x);
      }
      sym_close_environment(s);
    }
    free_model(m);
  }
  return fclose(out);
}
"""

HIGHS = r"""
import sys, time
import numpy as np
from scipy.optimize import Bounds, LinearConstraint, milp
from scipy.sparse import csr_matrix
words = iter(map(int, open(sys.argv[1]).read().split()))
models, rounds, limit = next(words), next(words), next(words)
out = open(sys.argv[2], "w")
for _ in range(models):
    cols, rows = next(words), next(words)
    columns = np.array([[next(words) for _ in range(3)] for _ in range(cols)], dtype=float)
    low, high, start, index, value = [], [], [0], [], []
    for _ in range(rows):
        low.append(next(words)); high.append(next(words))
        for _ in range(next(words)):
            index.append(next(words)); value.append(float(next(words)))
        start.append(len(index))
    matrix = csr_matrix((value, index, start), shape=(rows, cols)).tocsc()
    given = dict(c=-columns[:, 2], integrality=np.ones(cols), bounds=Bounds(columns[:, 0], columns[:, 1]),
                 constraints=LinearConstraint(matrix, low, high), options={"mip_rel_gap": 0, "time_limit": limit})
    best, spent = 1e18, 0
    for _ in range(rounds):
        begin = time.perf_counter()
        got = milp(**given)
        took = time.perf_counter() - begin
        best, spent = min(best, took), spent + took
        if spent > 0.5:
            break
    ones = [i for i in range(cols) if got.x[i] > 0.5] if got.x is not None else []
    print("%.1f %d" % (best * 1e6, got.status == 0), *ones, file=out)
out.close()
"""


def compiled(folder, name, text, flags, compiler=("gcc",)):
    """The command of a program in C, or None where it can't be compiled."""
    source, program = os.path.join(folder, name + ".c"), os.path.join(folder, name)
    with open(source, "w") as file:
        file.write(text)
    done = subprocess.run([*compiler, "-O2", "-o", program, source, *flags], stderr=subprocess.DEVNULL)
    return [program] if done.returncode == 0 else None


def flags_of(package, otherwise):
    """What the compiler needs for a package."""
    done = subprocess.run(["pkg-config", "--cflags", "--libs", package], stdout=subprocess.PIPE, stderr=subprocess.DEVNULL)
    return done.stdout.decode().split() if done.returncode == 0 else ["-I/usr/include/coin", *otherwise]


def with_scipy(folder):
    path = os.path.join(folder, "highs.py")
    with open(path, "w") as file:
        file.write(HIGHS)
    for interpreter in (sys.executable, "/usr/bin/python3"):
        try:
            done = subprocess.run([interpreter, "-c", "from scipy.optimize import milp"], stderr=subprocess.DEVNULL)
        except OSError:
            continue
        if done.returncode == 0:
            return [interpreter, path]
    return None


def attempt(make):
    try:
        return make()
    except OSError:
        return None


def all_peers(folder):
    """The commands of the peers that are there, by name."""
    found = {
        "GLPK": attempt(lambda: compiled(folder, "with_glpk", GLPK, ["-lglpk"])),
        "CBC": attempt(lambda: compiled(folder, "with_cbc", CBC, flags_of("cbc", ["-lCbcSolver", "-lCbc"]))),
        "HiGHS": with_scipy(folder),
        "SYMPHONY": attempt(lambda: compiled(folder, "with_symphony", SYMPHONY, flags_of("symphony", ["-lSym"]), AS_CXX)),
    }
    for name in [name for name in found if found[name] is None]:
        print("%s is left out: it isn't installed (%s)" % (name, HOW[name]), flush=True)
        del found[name]
    return found


def models_text(models, rounds):
    words = ["%d %d %d" % (len(models), rounds, LIMIT)]
    for m in models:
        words.append("%d %d" % (len(m.cost), len(m.rows)))
        words += ["%d %d %d" % triple for triple in zip(m.lower, m.upper, m.cost)]
        words += ["%d %d %d " % (low, high, len(parts)) + " ".join("%d %d" % p for p in parts) for low, high, parts in m.rows]
    return "\n".join(words) + "\n"


def solve_all(folder, command, models, rounds):
    """What a peer makes of each model."""
    given, answer = os.path.join(folder, "models"), os.path.join(folder, "answers")
    with open(given, "w") as file:
        file.write(models_text(models, rounds))
    subprocess.run([*command, given, answer], check=True, stdout=subprocess.DEVNULL)
    solved = []
    with open(answer) as file:
        for line in file:
            words = line.split()
            solved.append(Solved(float(words[0]), words[1] == "1", [int(w) for w in words[2:]]))
    if len(solved) != len(models):
        raise ValueError("%s answered %d of %d models" % (command[0], len(solved), len(models)))
    return solved
