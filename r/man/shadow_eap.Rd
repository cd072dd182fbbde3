\name{shadow_eap}
\alias{shadow_eap}
\title{The posterior mean, computed in R}
\description{Computes the mean and standard deviation of the posterior over the grid from the files of an
  examination. It shares no code with \code{\link{shadow_score}}, so one tests the other.}
\usage{
shadow_eap(exam, items, responses)
}
\arguments{
  \item{exam}{an examination of \code{\link{shadow_bank}}.}
  \item{items}{the items that were answered: their IDs, or their numbers in the bank from 0 on.}
  \item{responses}{the responses, from 0 on.}
}
\value{A vector with \code{eap} and \code{posterior_sd}.}
\examples{
\dontrun{
shadow_eap(exam, c("V3", "V7"), c(1, 0))
}
}
