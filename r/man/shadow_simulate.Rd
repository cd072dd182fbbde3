\name{shadow_simulate}
\alias{shadow_simulate}
\title{Simulated examinees}
\description{Takes simulated examinees through an examination by the command \code{shadow simulate}, and scores them.}
\usage{
shadow_simulate(exam, examinees = 1000, seed = 1, true = NULL, tails = "none",
                out = tempfile("run"))
}
\arguments{
  \item{exam}{an examination of \code{\link{shadow_bank}}.}
  \item{examinees}{how many.}
  \item{seed}{the same seed gives the same abilities and answers.}
  \item{true}{the abilities: \code{NULL} for the plan's prior, \code{c("normal", MEAN, SD)},
    \code{c("uniform", LOW, HIGH)}, or numbers, which are points with equal shares of the examinees.}
  \item{tails}{abilities at which more examinees are taken through, or \code{"none"}. They are in
    the files, and not in the data frames.}
  \item{out}{the path of the files without their ends.}
}
\value{A list of class \code{shadow_run}. \code{people} has a row for each examinee, with the true ability and the columns
  of \code{\link{shadow_score}}. \code{answers} has a row for each answer. \code{items} has how often each item was shown.
  \code{exam} is the prefix of the examination, \code{journal} the path of the journal, \code{sha256} has the digests of all files.}
\examples{
\dontrun{
run <- shadow_simulate(exam, examinees = 200)
sqrt(mean((run$people$eap - run$people$true)^2))
}
}
