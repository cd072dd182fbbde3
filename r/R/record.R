# What happened in a session, from its journal, by `shadow score`; the estimates after each answer are computed in R itself.

shadow_record <- function(exam, journal, session) {
  number <- as.numeric(whole_text(session, "session"))
  answers <- tempfile("answers")
  shown <- tempfile("shown")
  results <- tempfile("results")
  on.exit(unlink(c(answers, shown, results)))
  said <- run_shadow(c(score_words(exam, journal), "--open", "--answers", answers, "--shown", shown))$out
  writeLines(said, results, useBytes = TRUE)
  found <- read_result(results)
  row <- found[found$session == number, ]
  if (!nrow(row)) refuse(sprintf("session %d: the journal has %d sessions, from 0", number, nrow(found)))
  given <- read_result(answers)
  given <- given[given$session == number, ]
  names <- item_names(exam$map)
  seen <- read_result(shown)
  waiting <- setdiff(names[numbers_of_set(seen$items[seen$session == number]) + 1], given$item)
  list(booking = row$booking, session = number, state = row$state, steps = steps_of(exam, given, waiting))
}

# A row for each step: its item and response, and the estimates after the answers up to it. An item that waits has none of these.
steps_of <- function(exam, given, waiting) {
  after <- vapply(seq_len(nrow(given)), function(k) {
    sums <- posterior_sums(exam, given$item[seq_len(k)], given$response[seq_len(k)])
    c(exam$map$theta[which.max(sums)], moments(exam, sums))
  }, numeric(3))
  open <- rep(NA_real_, length(waiting))
  count <- nrow(given) + length(waiting)
  data.frame(step = seq_len(count) - 1L, item = c(given$item, waiting), response = c(given$response, as.integer(open)),
             mode = c(after[1, ], open), eap = c(after[2, ], open), posterior_sd = c(after[3, ], open), stringsAsFactors = FALSE)
}

# The numbers of a set as the tools print one: "0 2-4" is 0, 2, 3, 4.
numbers_of_set <- function(text) {
  runs <- strsplit(strsplit(text, " ", fixed = TRUE)[[1]], "-", fixed = TRUE)
  as.numeric(unlist(lapply(runs, function(run) seq(as.numeric(run[1]), as.numeric(run[length(run)])))))
}
