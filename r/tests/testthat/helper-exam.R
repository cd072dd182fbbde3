# What the tests need: items made here, and the command and the program, without which tests are skipped by name.

some_items <- function() {
  data.frame(ID = sprintf("%03d", 1:12), a = rep(c(0.8, 1.2, 1.6), 4), b = seq(-1.65, 1.65, length.out = 12), c = rep(c(0, 0.2), 6))
}

skip_without_program <- function() {
  skip_if(!nzchar(Sys.getenv("SHADOW")) && !nzchar(Sys.which("shadow")), "the command shadow is not here")
  skip_if(!file.exists(Sys.getenv("SHADOWD")), "the program shadowd is not here (SHADOWD)")
}

made <- new.env()

# An examination of five items, two of them of one domain, with a prior about 0.5. It is made once.
shared_exam <- function() {
  skip_without_program()
  if (is.null(made$exam)) {
    attributes <- data.frame(ID = some_items()$ID, DOMAIN = rep(c("one", "two"), 6))
    constraints <- data.frame(CONSTRAINT = c("length", "ones"), TYPE = "Number", WHAT = "Item",
                              CONDITION = c(NA, "DOMAIN == \"one\""), LB = c(5, 2), UB = c(5, 2))
    made$exam <- suppressWarnings(shadow_bank(some_items(), attributes, constraints, prior = c(0.5, 1)))
  }
  made$exam
}

# Eight examinees of it, half of them at each of two abilities.
shared_run <- function() {
  exam <- shared_exam()
  if (is.null(made$run)) made$run <- shadow_simulate(exam, examinees = 8, seed = 3, true = c(-1, 1))
  made$run
}
