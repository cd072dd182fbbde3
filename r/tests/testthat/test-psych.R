normal_answers <- function(slopes, places, examinees = 4000) {
  set.seed(5)
  ability <- stats::rnorm(examinees)
  right <- mapply(function(a, b) as.integer(stats::runif(examinees) < stats::pnorm(a * (ability - b))), slopes, places)
  colnames(right) <- sprintf("%03d", seq_along(slopes))
  right
}

test_that("a model of irt.fa gives back the parameters of simulated answers, and the bank has its curves", {
  skip_if_not_installed("psych")
  slopes <- c(0.6, 0.8, 1, 1.2, 1.5, 0.7)
  places <- c(-1, -0.5, 0, 0.5, 1, 1.2)
  model <- psych::irt.fa(normal_answers(slopes, places), plot = FALSE)
  found <- shadow_items(model)
  expect_identical(found$ID, sprintf("%03d", 1:6))
  expect_identical(unique(found$MODEL), "2PL")
  expect_lt(max(abs(found$PAR1 - slopes)), 0.25)
  expect_lt(max(abs(found$PAR2 - places)), 0.15)

  skip_without_program()
  exam <- suppressWarnings(shadow_bank(model, length = 3, D = 1.702))
  bank <- utils::read.csv(exam$bank, check.names = FALSE)
  slope <- model$irt$discrimination[, 1]
  for (k in 1:6) {
    own <- exam$map$items[[k]]$parameters
    theirs <- psych::logistic(exam$map$theta, a = 1.702 * slope[k], d = model$irt$difficulty[[1]][k] / slope[k])
    expect_lt(max(abs(psych::logistic(exam$map$theta, a = exam$map$D * own[1], d = own[2]) - theirs)), 1e-6)
    logs <- as.numeric(bank[k, paste0("l1_", seq_along(theirs) - 1)])
    expect_lt(max(abs(logs - 1000 * log(theirs))), 0.5 + 1e-6)
  }
})

test_that("two factors, and a reversed item, are refused", {
  slopes <- matrix(c(1, -0.5), 2, 1, dimnames = list(c("x", "y"), "MR1"))
  model <- structure(list(irt = list(discrimination = slopes, difficulty = list(c(x = 0, y = 1)))), class = c("psych", "irt.fa"))
  expect_error(shadow_items(model), "item y has no positive slope", class = "shadow_refused")
  model$irt$discrimination <- cbind(slopes, slopes)
  expect_error(shadow_items(model), "2 factors", class = "shadow_refused")
})

test_that("several categories are the graded response model", {
  slopes <- matrix(c(1, 0.5), 2, 1, dimnames = list(c("x", "y"), "MR1"))
  model <- structure(list(irt = list(discrimination = slopes, difficulty = list(rbind(c(-1, 1), c(-0.5, 2))))), class = c("psych", "irt.fa"))
  found <- shadow_items(model)
  expect_identical(found$MODEL, c("GR", "GR"))
  expect_equal(unlist(found[2, -(1:2)], use.names = FALSE), c(0.5, -1, 4))
})
