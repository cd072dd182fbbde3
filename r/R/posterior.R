# The posterior mean, computed from the bank's whole numbers and the plan's prior, apart from the command `shadow`.

shadow_eap <- function(exam, items, responses) moments(exam, posterior_sums(exam, items, responses))

# The logarithm of the posterior at each point of the grid, in the whole units of the bank, after these answers.
posterior_sums <- function(exam, items, responses) {
  if (length(items) != length(responses)) refuse(sprintf("%d items, and %d responses", length(items), length(responses)))
  numbers <- item_numbers(items, item_names(exam$map))
  bank <- read.csv(exam$bank, check.names = FALSE)
  points <- seq_along(exam$map$theta)
  sums <- prior_of(exam$plan)
  if (length(sums) != length(points)) refuse(sprintf("%s: its prior has %d points, the map has %d", exam$plan, length(sums), length(points)))
  for (at in seq_along(numbers)) {
    row <- numbers[at] + 1
    if (!responses[at] %in% (seq_len(bank$categories[row]) - 1)) {
      refuse(sprintf("response %s of item %s: it has %d categories, from 0", responses[at], items[at], bank$categories[row]))
    }
    sums <- sums + as.numeric(bank[row, paste0("l", responses[at], "_", points - 1)])
  }
  sums
}

moments <- function(exam, sums) {
  theta <- as.numeric(exam$map$theta)
  weights <- exp((sums - max(sums)) / exam$map$log_unit)
  weights <- weights / sum(weights)
  mean <- sum(weights * theta)
  c(eap = mean, posterior_sd = sqrt(sum(weights * (theta - mean)^2)))
}

# The prior of a plan, in whole units by point.
prior_of <- function(path) {
  line <- grep("^prior ", readLines(path, encoding = "UTF-8"), value = TRUE)
  as.numeric(strsplit(line[1], " ")[[1]][-1])
}
