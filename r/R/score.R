# Scores of a journal by `shadow score`, and simulations by `shadow simulate`, as data frames.

CHARACTERS <- c("booking", "state", "remark", "level", "audit", "bank", "plan", "map", "journal", "item", "passage", "part", "rule", "kind", "items")

# A table of the command. Bookings go up to 2^64, and an ID is a text: so both are characters.
read_result <- function(path) {
  head <- names(read.csv(path, nrows = 1, check.names = FALSE, colClasses = "character"))
  classes <- ifelse(head %in% CHARACTERS, "character", NA)
  read.csv(path, colClasses = classes, check.names = FALSE, encoding = "UTF-8", na.strings = character(), stringsAsFactors = FALSE)
}

shadow_score <- function(exam, journal, estimate = "eap", scale = c(0, 1), cuts = NULL, levels = NULL, open = FALSE, record = NULL) {
  answers <- tempfile("answers")
  results <- tempfile("results")
  own <- tempfile("record")
  on.exit(unlink(c(answers, results, own)))
  if (is.null(record)) record <- own
  words <- c(score_words(exam, journal), "--answers", answers, "--record", record, option_words("estimate", estimate),
             option_words("scale", scale), option_words("cuts", cuts), option_words("levels", levels), if (open) "--open")
  writeLines(run_shadow(words)$out, results, useBytes = TRUE)
  found <- read_result(results)
  attr(found, "answers") <- read_result(answers)
  attr(found, "record") <- jsonlite::fromJSON(record)
  found
}

score_words <- function(exam, journal) {
  c("score", exam$bank, exam$plan, paste0(exam$prefix, ".map.json"), "--journal", journal)
}

shadow_simulate <- function(exam, examinees = 1000, seed = 1, true = NULL, tails = "none", out = tempfile("run")) {
  words <- c("simulate", exam$prefix, "--out", out, option_words("examinees", examinees), option_words("seed", seed),
             true_words(true), option_words("tails", tails))
  said <- run_shadow(words)
  run <- jsonlite::fromJSON(paste0(out, ".run.json"))
  results <- shadow_score(exam, paste0(out, ".journal"))
  answers <- attr(results, "answers")
  people <- data.frame(true = run$true[as.numeric(results$booking) + 1], results, check.names = FALSE, stringsAsFactors = FALSE)
  names <- item_names(exam$map)
  shown <- tabulate(match(answers$item, names), length(names))
  items <- data.frame(item = names, shown = shown, exposure = shown / nrow(results), stringsAsFactors = FALSE)
  structure(class = "shadow_run", list(
    prefix = out, exam = exam$prefix, journal = paste0(out, ".journal"), sha256 = as.list(run$sha256), said = said$out,
    people = people, answers = answers, items = items
  ))
}

# The words of --true: a distribution with its two numbers, or points.
true_words <- function(true) {
  if (is.null(true)) return(character())
  if (is.numeric(true)) return(c("--true", "points", number_text(true)))
  c("--true", as.character(true))
}

print.shadow_run <- function(x, ...) {
  cat(sprintf("simulation %s: %d examinees, %d answers\n", x$prefix, nrow(x$people), nrow(x$answers)))
  cat(x$said, sep = "\n")
  invisible(x)
}
