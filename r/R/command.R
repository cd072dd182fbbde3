# The command `shadow`: where it is, how it is run, and what its refusal becomes in R.

refuse <- function(message, status = NULL, class = "shadow_refused", ...) {
  condition <- structure(
    class = c(class, "error", "condition"),
    list(message = message, call = NULL, status = status, ...)
  )
  stop(condition)
}

# The words that begin a call of the command: its path, after the interpreter where the path is that of a script.
shadow_words <- function() {
  path <- Sys.getenv("SHADOW")
  if (!nzchar(path)) path <- unname(Sys.which("shadow"))
  if (!nzchar(path)) {
    refuse("no command shadow: set the environment variable SHADOW to the path of tools/shadow.py, or put shadow on the path")
  }
  if (!file.exists(path)) refuse(sprintf("SHADOW=%s: no such file", path))
  if (grepl("\\.py$", path)) c(Sys.getenv("SHADOW_PYTHON", "python3"), path) else path
}

# Runs the command. Its lines of standard error are warnings where it succeeds, and a refusal where it does not.
run_shadow <- function(words, warn = TRUE) {
  call <- c(shadow_words(), words)
  said <- tempfile("said")
  errors <- tempfile("errors")
  on.exit(unlink(c(said, errors)))
  status <- suppressWarnings(system2(call[1], shQuote(call[-1]), stdout = said, stderr = errors))
  lines <- lines_of(errors)
  if (status != 0) {
    if (!length(lines)) lines <- lines_of(said)
    text <- if (length(lines)) paste(lines, collapse = "\n") else sprintf("shadow %s: status %d", words[1], status)
    refuse(text, status = status, lines = lines)
  }
  if (warn) for (line in grep("^warning: ", lines, value = TRUE)) warning(sub("^warning: ", "", line), call. = FALSE)
  list(out = lines_of(said), warnings = sub("^warning: ", "", grep("^warning: ", lines, value = TRUE)))
}

lines_of <- function(path) {
  if (file.exists(path)) readLines(path, warn = FALSE, encoding = "UTF-8") else character()
}

# A number as the command reads it: all digits that R has of it, no exponent for whole numbers.
number_text <- function(x) {
  whole <- is.finite(x) & x == round(x) & abs(x) < 2^53
  ifelse(whole, sprintf("%.0f", x), sprintf("%.17g", x))
}

option_words <- function(name, value) {
  if (is.null(value)) return(character())
  c(paste0("--", name), if (is.numeric(value)) number_text(value) else as.character(value))
}

# Writes a data frame as CSV in UTF-8, numbers with all their digits, NA as an empty field.
write_table <- function(table, path) {
  numeric <- vapply(table, is.numeric, NA)
  table[numeric] <- lapply(table[numeric], function(x) ifelse(is.na(x), NA_character_, number_text(x)))
  table[!numeric] <- lapply(table[!numeric], function(x) enc2utf8(as.character(x)))
  file <- file(path, "w", encoding = "UTF-8")
  on.exit(close(file))
  write.csv(table, file, row.names = FALSE, na = "", quote = TRUE)
}
