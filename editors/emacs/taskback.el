;;; taskback.el --- Task programs of Taskback, and their debugging  -*- lexical-binding: t; -*-

;; Package-Requires: ((emacs "27.1") (dap-mode "0.7"))

;;; Commentary:

;; A mode for .task and .session files, and a launch template for dap-mode (Debian's elpa-dap-mode):
;;
;;   (load "PATH/TO/editors/emacs/taskback.el")
;;
;; Then `M-x dap-debug' on such a file offers "Taskback: this file".  `taskback-step-back' takes the newest
;; step of the task back with all that need it, and `taskback-reverse-continue' goes back to the breakpoint
;; before.  docs/EDITORS.md says more.

;;; Code:

(require 'dap-mode)
;; dap-mode asks it which kinds of steps stop.
(require 'dap-ui)

(defgroup taskback nil
  "Task programs of Taskback."
  :group 'tools)

(defcustom taskback-dap-program
  (expand-file-name "../../taskback-dap" (file-name-directory (or load-file-name buffer-file-name default-directory)))
  "The server of the Debug Adapter Protocol."
  :type 'file
  :group 'taskback)

(defvar taskback-races nil
  "The races of the session that is debugged, as the server told them last.")

;; The mode

(defconst taskback--words
  '("body" "task" "taskwait" "taskgroup" "if" "else" "while" "end" "let" "load" "store" "print" "cells" "cell"))

(defconst taskback--types '("in" "out" "inout" "mutexinoutset" "inoutset" "all"))

(defvar taskback-font-lock-keywords
  `((,(concat "^[ \t]*" (regexp-opt taskback--words 'symbols)) . font-lock-keyword-face)
    ("^---$" . font-lock-warning-face)
    ("\\_<body[ \t]+\\([A-Za-z_][A-Za-z0-9_]*\\)" 1 font-lock-function-name-face)
    ("\\_<task[ \t]+\\([A-Za-z_][A-Za-z0-9_]*\\)" 1 font-lock-function-name-face)
    ("\\_<depend\\_>" . font-lock-builtin-face)
    (,(concat "\\_<depend[ \t]+" (regexp-opt taskback--types t) "\\_>") 1 font-lock-type-face)
    ("\\_<r\\(?:[0-9]\\|1[0-5]\\)\\_>" . font-lock-variable-name-face)))

;;;###autoload
(define-derived-mode taskback-mode prog-mode "Taskback"
  "A mode for task programs and sessions of Taskback."
  (modify-syntax-entry ?# "<" taskback-mode-syntax-table)
  (modify-syntax-entry ?\n ">" taskback-mode-syntax-table)
  (setq-local comment-start "# ")
  ;; 0#3 is the name of a step: a comment's mark begins a word.
  (setq-local syntax-propertize-function (syntax-propertize-rules ("[^ \t\n]\\(#\\)" (1 "_"))))
  (setq-local comment-start-skip "\\(?:^\\|[ \t]\\)#+[ \t]*")
  (setq-local font-lock-defaults '(taskback-font-lock-keywords)))

;;;###autoload
(add-to-list 'auto-mode-alist '("\\.\\(?:task\\|session\\)\\'" . taskback-mode))

;; The debugger

(defun taskback--launch-arguments (conf)
  "The launch arguments of CONF, with the current file and the server where it names none."
  (-> conf
      (dap--put-if-absent :dap-server-path (list taskback-dap-program))
      (dap--put-if-absent :program (buffer-file-name))
      (dap--put-if-absent :cwd (file-name-directory (or (plist-get conf :program) (buffer-file-name) default-directory)))
      (dap--put-if-absent :stopOnEntry t)))

(dap-register-debug-provider "taskback" #'taskback--launch-arguments)

(dap-register-debug-template "Taskback: this file"
                             (list :type "taskback"
                                   :request "launch"
                                   :name "Taskback: this file"))

(cl-defmethod dap-handle-event ((_event (eql taskback.races)) _session params)
  "Keep the races that PARAMS tells, and say how many kinds there are."
  (setq taskback-races (gethash "races" params))
  (unless (zerop (length taskback-races))
    (message "Taskback: %d kind%s of races; `races' in the console shows them"
             (length taskback-races) (if (= 1 (length taskback-races)) "" "s"))))

(defun taskback-step-back ()
  "Take the newest step of the current task back, with all steps that need it."
  (interactive)
  (dap--step "stepBack" (dap--cur-active-session-or-die)))

(defun taskback-reverse-continue ()
  "Take the newest steps back, up to the breakpoint before."
  (interactive)
  (dap--step "reverseContinue" (dap--cur-active-session-or-die)))

;; Keys

(defvar taskback-keys-mode-map
  (let ((map (make-sparse-keymap)))
    (define-key map (kbd "C-c C-d") #'dap-debug)
    (define-key map (kbd "C-c C-t") #'dap-breakpoint-toggle)
    (define-key map (kbd "C-c C-n") #'dap-next)
    (define-key map (kbd "C-c C-s") #'dap-step-in)
    (define-key map (kbd "C-c C-c") #'dap-continue)
    (define-key map (kbd "C-c C-p") #'taskback-step-back)
    (define-key map (kbd "C-c C-r") #'taskback-reverse-continue)
    (define-key map (kbd "C-c C-e") #'dap-eval)
    (define-key map (kbd "C-c C-l") #'dap-ui-locals)
    map)
  "Keys that step forwards and backwards.")

;;;###autoload
(define-minor-mode taskback-keys-mode
  "Keys that step forwards and backwards; also for the C file of a recorded run."
  :lighter " Back")

(add-hook 'taskback-mode-hook #'taskback-keys-mode)

(provide 'taskback)
;;; taskback.el ends here
