test_that("bank and simulation: every ID, the rule of the blueprint, each answer", {
  exam <- shared_exam()
  expect_identical(vapply(exam$map$items, function(item) item$id, ""), some_items()$ID)
  run <- shared_run()
  expect_identical(nrow(run$people), 8L)
  expect_identical(as.vector(table(run$people$true)), c(4L, 4L))
  expect_identical(names(table(run$people$true)), c("-1", "1"))
  expect_identical(nrow(run$answers), 40L)
  expect_equal(sum(run$items$shown), 40)
  expect_equal(sum(run$items$exposure), 5)
  expect_true(all(run$people$audit == "audited"))
  ones <- some_items()$ID[c(TRUE, FALSE)]
  expect_identical(as.vector(tapply(run$answers$item %in% ones, run$answers$session, sum)), rep(2L, 8))
})

test_that("the mean computed in R is that of the score", {
  run <- shared_run()
  for (session in run$people$session) {
    answers <- run$answers[run$answers$session == session, ]
    found <- shadow_eap(shared_exam(), answers$item, answers$response)
    scored <- run$people[run$people$session == session, ]
    expect_lt(abs(found[["eap"]] - scored$eap), 5.1e-5)
    expect_lt(abs(found[["posterior_sd"]] - scored$posterior_sd), 5.1e-5)
  }
})

test_that("the mean without an answer is that of the prior, and a faulty answer is refused", {
  exam <- shared_exam()
  expect_equal(shadow_eap(exam, character(), numeric())[["eap"]], 0.5, tolerance = 2e-3)
  expect_error(shadow_eap(exam, "nobody", 1), "no such item", class = "shadow_refused")
  expect_error(shadow_eap(exam, 12, 1), "no such item", class = "shadow_refused")
  expect_error(shadow_eap(exam, "001", 2), "2 categories", class = "shadow_refused")
  expect_error(shadow_eap(exam, c("001", "002"), 1), "2 items, and 1", class = "shadow_refused")
})

test_that("the exact posterior mean of the model, from the parameters alone", {
  exam <- shared_exam()
  items <- some_items()[c(2, 5, 9), ]
  theta <- seq(-8, 8, length.out = 4001)
  chances <- mapply(function(a, b, c) c + (1 - c) * stats::plogis(a * (theta - b)), items$a, items$b, items$c)
  weights <- stats::dnorm(theta, 0.5) * chances[, 1] * (1 - chances[, 2]) * chances[, 3]
  expect_equal(shadow_eap(exam, items$ID, c(1, 0, 1))[["eap"]], sum(theta * weights) / sum(weights), tolerance = 5e-3)
})

test_that("levels, cuts and the record", {
  found <- shadow_score(shared_exam(), shared_run()$journal, scale = c(500, 100), cuts = 500, levels = c("low", "high"))
  expect_equal(found$scale, 500 + 100 * found$theta, tolerance = 1e-4)
  expect_identical(found$level, ifelse(found$scale < 500, "low", "high"))
  expect_true(is.character(found$booking))
  expect_true(found$plan[1] %in% unlist(attr(found, "record")))
})

test_that("a refusal is a condition with the tool's line, and nothing is written", {
  skip_without_program()
  out <- tempfile("refused")
  items <- some_items()
  items$a[4] <- -1
  refused <- tryCatch(shadow_bank(items, length = 5, out = out), shadow_refused = identity)
  expect_s3_class(refused, "shadow_refused")
  expect_match(conditionMessage(refused), "line 5.*slope -1 is not above 0")
  expect_identical(refused$status, 1L)
  expect_length(Sys.glob(paste0(out, "*")), 0)
  expect_error(shadow_score(shared_exam(), tempfile("nothing")), class = "shadow_refused")
})

test_that("a command that is not there is refused by name", {
  before <- Sys.getenv("SHADOW")
  on.exit(if (nzchar(before)) Sys.setenv(SHADOW = before) else Sys.unsetenv("SHADOW"))
  Sys.setenv(SHADOW = file.path(tempdir(), "no", "shadow.py"))
  expect_error(shadow_bank(some_items(), length = 5), "no such file", class = "shadow_refused")
})
