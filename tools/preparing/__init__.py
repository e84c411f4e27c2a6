"""What `tools/prepare` is made of: a Jenkinsfile as it stands in Jenkins becomes a script of this product's language."""
