# The tables of the report, the prices, and the record of a session, beside numbers that are computed here from the journal's answers and the
# bank's whole numbers.

skip_without_page <- function() {
  skip_without_program()
  python <- Sys.getenv("SHADOW_PYTHON", "python3")
  found <- suppressWarnings(system2(python, c("-c", shQuote("import matplotlib, scipy, pandas, jinja2")), stdout = FALSE, stderr = FALSE))
  skip_if(found != 0, "python3-matplotlib, -scipy, -pandas or -jinja2 is not here")
}

# The bank's information of each item at a point of the grid, in units.
information <- function(exam, point) utils::read.csv(exam$bank, check.names = FALSE)[[paste0("i", point)]] / exam$map$information_unit

test_that("the tables beside a page: exposure by band, steps and rules are those of the answers", {
  skip_without_page()
  run <- shared_run()
  page <- tempfile("page", fileext = ".html")
  made <- shadow_report(run, page, c("--bands", "-2", "0", "2"))
  expect_match(made$said, "8 sessions, 0 broken rules")
  expect_true(any(grepl("Rules of the plan", readLines(page, encoding = "UTF-8"), fixed = TRUE)))
  truth <- run$people$true[match(run$answers$session, run$people$session)]
  names <- some_items()$ID
  shown <- function(answers) as.integer(table(factor(answers$item, names)))
  expect_identical(made$items$item, names)
  expect_identical(made$items$shown, shown(run$answers))
  expect_equal(made$items$exposure, shown(run$answers) / 8, tolerance = 1e-9)
  expect_equal(made$items[["exposure -2 to 0"]], shown(run$answers[truth < 0, ]) / 4, tolerance = 1e-9)
  expect_equal(made$items[["exposure 0 to 2"]], shown(run$answers[truth > 0, ]) / 4, tolerance = 1e-9)
  steps <- tapply(run$answers$step, factor(run$answers$item, names), mean)
  expect_lt(max(abs(made$items$mean_step - steps), na.rm = TRUE), 5.1e-5)
  expect_identical(is.na(made$items$mean_step), as.vector(is.na(steps)))
  expect_equal(made$people$true, run$people$true, tolerance = 1e-4)
  expect_lt(max(abs(made$people$theta - run$people$eap)), 1.01e-4)
  expect_identical(made$answers$item, run$answers$item)

  ones <- as.vector(tapply(run$answers$item %in% names[c(TRUE, FALSE)], run$answers$session, sum))
  expect_identical(nrow(made$rules), 1L)
  expect_identical(unlist(made$rules[1, c("low", "high", "tests", "least", "greatest", "broken")], use.names = FALSE),
                   as.integer(c(2, 2, 8, min(ones), max(ones), sum(ones != 2))))
  expect_equal(unlist(made$rules[1, c("mean", "at_low", "at_high")], use.names = FALSE), c(mean(ones), mean(ones == 2), mean(ones == 2)))
})

test_that("exposure alone, and what is no simulation", {
  skip_without_page()
  run <- shared_run()
  exposure <- shadow_exposure(run, bands = 0, by = "estimate")
  low <- run$people$session[run$people$eap < 0]
  counts <- table(factor(run$answers$item[run$answers$session %in% low], some_items()$ID))
  expect_equal(exposure[["exposure below 0"]], as.vector(counts) / length(low), tolerance = 1e-4)
  expect_equal(sum(exposure$exposure), 5)
  expect_error(shadow_rules(shared_exam()), "simulation of shadow_simulate", class = "shadow_refused")
  expect_error(shadow_report(1, "page.html"), "class numeric", class = "shadow_refused")
})

test_that("the page of a window, from a journal and a record that is kept", {
  skip_without_page()
  run <- shared_run()
  record <- tempfile("record")
  scored <- shadow_score(shared_exam(), run$journal, scale = c(500, 100), record = record)
  page <- tempfile("window", fileext = ".html")
  made <- shadow_report(shared_exam(), page, journal = run$journal, record = record)
  expect_match(made$said, "8 sessions, 8 complete, 0 broken rules, audits agree")
  expect_lt(max(abs(made$people$scale - scored$scale)), 1e-9)
  expect_equal(sum(made$items$shown), nrow(run$answers))
  appeal <- tempfile("appeal", fileext = ".html")
  said <- shadow_report(shared_exam(), appeal, journal = run$journal, record = record, options = c("--session", "3", "--without-key"))$said
  expect_match(said, sprintf("session 3, booking %s, score %.4f, audits agree", scored$booking[4], scored$scale[4]), fixed = TRUE)
})

test_that("the price of a rule is what the best form without it informs more", {
  skip_without_page()
  exam <- shared_exam()
  prices <- shadow_price(exam, at = c(-1, 1), write = TRUE)
  expect_identical(prices$at, rep(c(-1, 1), nrow(prices) / 2))
  expect_identical(prices$least, prices$greatest)
  for (at in c(-1, 1)) {
    value <- information(exam, which.min(abs(exam$map$theta - at)) - 1)
    one <- c(TRUE, FALSE)
    top <- function(values, count) sum(sort(values, decreasing = TRUE)[seq_len(count)])
    ruled <- top(value[one], 2) + top(value[!one], 3)
    own <- prices[prices$at == at, ]
    expect_lt(abs(own$least[1] - ruled), 5.1e-5)
    expect_lt(max(abs(own$least[-1] - (top(value, 5) - ruled))), 5.1e-5)
    expect_identical(own$rule[1:2], c("best form", "all rules together"))
  }
  gains <- attr(prices, "write")
  expect_identical(names(gains), c("kind", "difficulty", "mean", "at", "least", "greatest"))
  expect_identical(gains$mean, sort(gains$mean, decreasing = TRUE))
  first <- gains[seq_len(2), ]
  expect_lt(abs(mean(first$least) - first$mean[1]), 1.01e-4)
  expect_error(shadow_price(exam, at = 99), "--at 99: the grid is from", class = "shadow_refused")
})

test_that("the record of a session ends with the estimates of its score", {
  run <- shared_run()
  for (session in c(0, 7)) {
    scored <- run$people[run$people$session == session, ]
    record <- shadow_record(shared_exam(), run$journal, session)
    expect_identical(record[c("booking", "state")], list(booking = scored$booking, state = "complete"))
    given <- run$answers[run$answers$session == session, ]
    expect_identical(record$steps[c("step", "item", "response")], data.frame(given[c("step", "item", "response")], row.names = NULL))
    expect_equal(record$steps$mode[5], scored$mode, tolerance = 1e-4)
    expect_lt(abs(record$steps$eap[5] - scored$eap), 5.1e-5)
    expect_lt(abs(record$steps$posterior_sd[5] - scored$posterior_sd), 5.1e-5)
  }
  expect_error(shadow_record(shared_exam(), run$journal, 8), "session 8: the journal has 8 sessions", class = "shadow_refused")
  expect_error(shadow_record(shared_exam(), run$journal, -1), "one whole number", class = "shadow_refused")
})

test_that("a set of numbers as the tools print one, and tables with two columns for each ability", {
  expect_identical(shadowr:::numbers_of_set("0 2-4 9"), c(0, 2, 3, 4, 9))
  expect_identical(shadowr:::numbers_of_set(""), numeric())
  expect_identical(shadowr:::without_end(c("a.b/c", "a.b/c.html", "c.x.html", "d/.c")), c("a.b/c", "a.b/c", "c.x", "d/.c"))
  wide <- data.frame(rule = c("p", "q"), a = c(1, 2), b = c(3, 4), c = c(5, 6), d = c(7, 8))
  names(wide)[-1] <- c("least at -0.5", "greatest at -0.5", "least at 1", "greatest at 1")
  found <- shadowr:::by_ability(wide, "rule")
  expect_identical(found$rule, c("p", "p", "q", "q"))
  expect_identical(found$at, c(-0.5, 1, -0.5, 1))
  expect_identical(found$least, c(1, 5, 2, 6))
  expect_identical(found$greatest, c(3, 7, 4, 8))
})
