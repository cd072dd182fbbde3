# Pages and tables of `shadow report`: a simulation or a window as one page, exposure, rules, and the price of each rule.

shadow_report <- function(x, file, ...) UseMethod("shadow_report")

shadow_report.default <- function(x, file, ...) {
  refuse(sprintf("shadow_report: an object of class %s; give a simulation of shadow_simulate, or an examination", paste(class(x), collapse = ", ")))
}

shadow_report.shadow_run <- function(x, file, options = character(), ...) {
  said <- run_shadow(c("report", x$exam, "--run", x$prefix, "--to", file, options))
  invisible(c(list(file = file, said = said$out), tables_beside(file, c(people = "sessions", "answers", "items", "rules"))))
}

shadow_report.shadow_exam <- function(x, file, journal, record, options = character(), ...) {
  said <- run_shadow(c("report", x$prefix, "--journal", journal, "--record", record, "--to", file, options))
  invisible(c(list(file = file, said = said$out), tables_beside(file, c(people = "sessions", "items"))))
}

# The tables that stand beside a page, by name. The page for an appeal has none.
tables_beside <- function(file, names) {
  own <- if (is.null(names(names))) names else ifelse(nzchar(names(names)), names(names), names)
  paths <- paste0(without_end(file), ".", names, ".csv")
  found <- file.exists(paths)
  setNames(lapply(paths[found], read_result), own[found])
}

without_end <- function(path) sub("(?<=[^/])[.][^./]*$", "", path, perl = TRUE)

shadow_exposure <- function(run, bands = NULL, by = "truth") {
  report_of(run, c(option_words("bands", bands), "--by", by))$items
}

shadow_rules <- function(run) report_of(run)$rules

# The tables of a report whose page is not kept.
report_of <- function(run, options = character()) {
  if (!inherits(run, "shadow_run")) refuse("give a simulation of shadow_simulate")
  folder <- tempfile("report")
  dir.create(folder)
  on.exit(unlink(folder, recursive = TRUE))
  shadow_report(run, file.path(folder, "page.html"), options)
}

shadow_price <- function(exam, at = NULL, write = FALSE) {
  folder <- tempfile("prices")
  dir.create(folder)
  on.exit(unlink(folder, recursive = TRUE))
  page <- file.path(folder, "page.html")
  run_shadow(c("report", exam$prefix, "--prices", "--to", page, option_words("at", at), if (!write) "--rules-only"))
  found <- by_ability(read_result(file.path(folder, "page.prices.csv")), "rule")
  if (write) attr(found, "write") <- by_ability(read_result(file.path(folder, "page.write.csv")), c("kind", "difficulty", "mean"))
  found
}

# A table with two columns for each ability as one with a row for each ability.
by_ability <- function(table, keys) {
  least <- grep("^least at ", names(table), value = TRUE)
  at <- as.numeric(sub("^least at ", "", least))
  long <- lapply(seq_along(at), function(k) {
    data.frame(table[keys], at = rep(at[k], nrow(table)), least = table[[least[k]]], greatest = table[[sub("^least", "greatest", least[k])]],
               stringsAsFactors = FALSE)
  })
  found <- do.call(rbind, long)
  found[order(rep(seq_len(nrow(table)), length(at))), ]
}
