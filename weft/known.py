"""The digests of the packages that this weft was made with; python3 -m weft.packages notes them anew."""

DIGESTS = {
    "timeweave_reference": "d3c5731fdbb23833b2b1fbbe8011464c600046e293dfce19f46d4730fc40ccf6",
    "timeweave": "21e5065ea3a2e66e4885e4fcd4cdb00aeee376e5addf8b03b471c4ab9acbf78c",
}
